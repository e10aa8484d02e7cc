// 13 lines 8 code 4 comments 1 blanks
/* a block
   of two lines */

void setup() {
    Serial.begin(9600); // bits a second
    Serial.println("// ready");
}
void loop() { delay(10); }
const char *raw = R"json(
// a )" b
)json";
// a
