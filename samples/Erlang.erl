% 10 lines 5 code 4 comments 1 blanks
% for people who read

-module(greeter).
greet(Name) -> io:format("% none ~s", [Name]). % once
'an % atom'() -> ok.
skip([$"|T]) -> T;
% a
skip([$'|T]) -> T.
% b
