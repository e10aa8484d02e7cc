// 5 lines 3 code 1 comments 1 blanks

public function main() {
    string mark = "// none"; // a text
}
