// 8 lines 4 code 3 comments 1 blanks
// for people who read

fn main() -> felt252 {
    'mark // none' // a short text
}
let name = 'don"t';
// a
