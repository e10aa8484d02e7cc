// 8 lines 4 code 3 comments 1 blanks
/* a block
   of two lines */

float4 main(float2 uv : TEXCOORD0) : SV_Target {
    printf("// %f", uv.x); // for debugging
    return float4(uv, 0, 1);
}
