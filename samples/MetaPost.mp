% 6 lines 4 code 1 comments 1 blanks

beginfig(1);
  draw (0, 0)--(1cm, 1cm); % once
  label("% none", (0, 0));
endfig;
