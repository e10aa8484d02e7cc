<CsoundSynthesizer>
; 16 lines 11 code 4 comments 1 blanks
<CsInstruments>
// a line too
/* a block
   and its end */

instr 1
  a1 oscil 0.1, 440 ; once
  prints "; none \" /* none"
  Scode = {{
; none
  }}
  out a1
endin
</CsInstruments>
