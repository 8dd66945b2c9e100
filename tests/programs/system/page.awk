# A block of a page: the code, as lines that are indented or fenced, of the section `section` with the number `wanted`.
function begin() { if (!within) { within = 1; number++ } }
/^## / { shown = $0 == "## " section; number = within = 0; next }
!shown { next }
/^```/ { if (fenced) { fenced = within = 0 } else { fenced = 1; begin() } next }
fenced || /^    / { begin(); if (number == wanted) { if (!fenced) sub("^    ", ""); print } next }
{ within = 0 }
