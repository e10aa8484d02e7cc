// 9 lines 5 code 3 comments 1 blanks
/* a block
   of two lines */

Shader "Custom//White" {
    SubShader {
        Pass { Color (1,1,1,1) } // one pass
    }
}
