// 14 lines 8 code 5 comments 1 blanks
/* a block
   of two lines */

package main
import "fmt"
func main() {
	raw := `a \ "quoted" // text`
	fmt.Println("/* no comment", raw) // said once
}
var mark = '"'
// a comment, since the mark opens no string
var tick = '`'
// a
