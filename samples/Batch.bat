:: 13 lines 4 code 8 comments 1 blanks
:: for people who read

@echo off
echo :: no comment, since it stands behind echo
set name=a name
goto :eof
rem for people who read
@rem for them too
REM
@rem
rem	a
REM---
