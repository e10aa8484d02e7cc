// 10 lines 6 code 3 comments 1 blanks
/* a block
   of two lines */

#include <metal_stdlib>
using namespace metal;
kernel void twice(device float *x [[buffer(0)]], uint i [[thread_position_in_grid]]) {
    x[i] *= 2; // each once
}
constant char mark[] = "/*";
