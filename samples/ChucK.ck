// 8 lines 4 code 3 comments 1 blanks
/* a block
   and its end */

SinOsc s => dac; // once
"/* none" => string text;
440 => s.freq;
1::second => now;
