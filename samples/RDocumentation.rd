% 5 lines 2 code 2 comments 1 blanks
% for people who read

\name{greeter}
\title{Say 5\% of it} % once
