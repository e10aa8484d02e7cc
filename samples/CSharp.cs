// 21 lines 15 code 5 comments 1 blanks
/* a block
   of two lines */

using System;
class Greeter {
    static string folder = @"C:\work\";
    static void Main() {
        Console.WriteLine("// no comment"); // said once
    }
}
class Texts {
    char mark = '"';
    // a comment, since the mark opens no string
    string raw = """
        a " mark
        // code, since the text goes on
        """;
    string path = @$"C:\";
    // a comment again
}
