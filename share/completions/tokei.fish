# The options of tokei for fish.

# The languages of the tokei on the path.
function __tokei_languages
    tokei --languages 2>/dev/null | string replace --regex '  .*' '' | tail -n +2
end

complete -c tokei -s c -l columns -x -d "Width of the report"
complete -c tokei -s e -l exclude -x -d "Leave out what matches the pattern"
complete -c tokei -s f -l files -d "List every file"
complete -c tokei -s i -l input -r -d "Add the statistics of an earlier run"
complete -c tokei -l hidden -d "Count hidden files"
complete -c tokei -s l -l languages -d "List the languages"
complete -c tokei -l no-ignore -d "Obey no ignore file"
complete -c tokei -l no-ignore-parent -d "Obey no ignore file of the folders above"
complete -c tokei -l no-ignore-dot -d "Obey neither .ignore nor .tokeignore"
complete -c tokei -l no-ignore-vcs -d "Obey none of git's ignore files"
complete -c tokei -s o -l output -x -a "json" -d "Format for other programs"
complete -c tokei -l streaming -x -a "simple json" -d "A record of each file"
complete -c tokei -s s -l sort -x -a "files lines blanks code comments" -d "Sort by a column"
complete -c tokei -s r -l rsort -x -a "files lines blanks code comments" -d "Sort by a column, reversed"
complete -c tokei -s t -l types -x -a "(__fish_complete_list , __tokei_languages)" -d "Count only these languages"
complete -c tokei -s C -l compact -d "Leave embedded languages out"
complete -c tokei -s n -l num-format -x -a "plain commas dots underscores" -d "How numbers are printed"
complete -c tokei -s v -l verbose -d "Show more notes"
complete -c tokei -l table -r -d "The table of languages"
complete -c tokei -s h -l help -d "Print help"
complete -c tokei -s V -l version -d "Print the version"
