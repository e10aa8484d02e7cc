* 12 lines 3 code 8 comments 1 blanks
* for people who read

Set i / 1*3 /;
Parameter p "* none";
$onText
a block
$offText
Parameter q a plant's price;
$onText
a block
$offText
