// 8 lines 4 code 3 comments 1 blanks
/* a block /* in a block */
   and its end */

@fragment
fn main() -> @location(0) vec4<f32> {
    return vec4<f32>(1.0); // white
}
