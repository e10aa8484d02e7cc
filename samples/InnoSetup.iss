; 9 lines 6 code 2 comments 1 blanks

[Setup]
AppName="My Program; none"
[Code]
// in Pascal
function Ready(): Boolean;
begin
end;
