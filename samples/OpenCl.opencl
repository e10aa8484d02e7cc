// 9 lines 5 code 3 comments 1 blanks
/* a block
   of two lines */

__kernel void twice(__global float *x) {
    size_t i = get_global_id(0);
    printf("// %d", (int)i); // each once
    x[i] *= 2;
}
