// A library.
function chart() {}
