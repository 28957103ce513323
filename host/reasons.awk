# The rows at which a reason changes, for `./bench explain --all`, from the program's lines: three for each row, one for each phase,
# `L1: reason<TAB>numbers`. How much is lacking is no part of a reason.
BEGIN {
    FS = "\t"
}
{
    phase = substr($1, 1, 2)
    reason = $1
    sub(/, [0-9]+ lacking$/, "", reason)
    if (reason != before[phase])
        told = told (told == "" ? "" : "; ") $1
    before[phase] = reason
}
NR % 3 == 0 {
    row = NR / 3
    if (told != "")
        printf "row %d (%d.%03d s): %s\n", row, int((row - 1) / 1000), (row - 1) % 1000, told
    told = ""
}
