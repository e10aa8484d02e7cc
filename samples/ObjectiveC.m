// 11 lines 7 code 3 comments 1 blanks
/* a block
   of two lines */

#import <Foundation/Foundation.h>
int main(void) {
    @autoreleasepool {
        NSLog(@"// no comment"); // said once
    }
    return 0;
}
