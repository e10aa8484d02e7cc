// 7 lines 3 code 3 comments 1 blanks
/* a block
   of two lines */

DefinitionBlock ("dsdt.aml", "DSDT", 2, "OEM//", "TABLE", 1) {
    Device (DEV0) { Name (_HID, "PNP0A03") } // one
}
