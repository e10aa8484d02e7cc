# 6 lines 3 code 2 comments 1 blanks
# for people who read

rule greet:
    output: "# none.txt" # one file
    shell: "echo > {output}"
