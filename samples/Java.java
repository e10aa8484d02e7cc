// 17 lines 12 code 4 comments 1 blanks
/* a block
   of two lines */

class Greeter {
    public static void main(String[] names) {
        System.out.println("// no comment"); // said once
    }
}
class Texts {
    char mark = '"';
    // a comment, since the mark opens no string
    String block = """
        a " mark
        // code, since the text goes on
        """;
}
