// 8 lines 4 code 3 comments 1 blanks
/* a block
   of two lines */

export void twice(uniform float x[], uniform int n) {
    foreach (i = 0 ... n) x[i] *= 2; // each once
    print("// done");
}
