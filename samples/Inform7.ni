[ 6 lines 2 code 3 comments 1 blanks ]
[ a block [ in a block ]
  and its end ]

The Kitchen is a room.
The description is "A room." [ one ]
