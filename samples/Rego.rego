# 6 lines 3 code 2 comments 1 blanks
# for people who read

package greeter
allow { input.name == "a # name" } # one rule
mark := `# \ none`
