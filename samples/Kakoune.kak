# 7 lines 3 code 3 comments 1 blanks
# for people who read

map global user w ':w<ret>' # saves
echo "# none"
echo %{Don't}
# a
