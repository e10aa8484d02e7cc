// 9 lines 5 code 3 comments 1 blanks
/* a block
   of two lines */

import shapes;
float4 shade(float2 uv) {
    printf("// shading"); // once
    return float4(uv, 0, 1);
}
