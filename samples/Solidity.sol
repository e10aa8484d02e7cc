// 9 lines 5 code 3 comments 1 blanks
/* a block
   of two lines */

pragma solidity ^0.8.0;
contract Greeter {
    string path = "http://example.org"; // ours
    function mark() public pure returns (string memory) { return '/*'; }
}
