// 9 lines 5 code 3 comments 1 blanks
/* a block
   of two lines */

shader_type canvas_item;
#include "res://white.gdshaderinc"
void fragment() {
    COLOR = vec4(1.0); // white
}
