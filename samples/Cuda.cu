// 13 lines 8 code 4 comments 1 blanks
/* a block
   of two lines */

__global__ void twice(float *x, int n) {
    int i = blockIdx.x * blockDim.x + threadIdx.x;
    if (i < n) x[i] *= 2; /* each once */
}
const char *mark = "/* none";
const char *raw = R"json(
// a )" b
)json";
// a
