// 9 lines 5 code 3 comments 1 blanks
/* a block
   of two lines */

class Greeter {
    def greet() {
        println("// no comment") // said once
    }
}
