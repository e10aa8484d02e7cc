# 7 lines 3 code 3 comments 1 blanks
# for people who read

{ 'targets': [{ # ours
  'target_name': "# none" }] }
'name': 'don\'t "',
# a
