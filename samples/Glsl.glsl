// 9 lines 5 code 3 comments 1 blanks
/* a block
   of two lines */

#version 450
layout(location = 0) out vec4 color;
void main() {
    color = vec4(1.0); // white
}
