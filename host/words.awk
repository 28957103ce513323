# The replay's lines in words, for `./bench replay --words`. A row is a millisecond, and the first is at time 0.
BEGIN {
    FS = ","
    count = split("L1 start,L2 start,L3 start,L1 trip,L2 trip,L3 trip,general start,general trip", outputs, ",")
}
$1 == "end" {
    printf "end: %d row%s done, %s\n", $2, $2 == 1 ? "" : "s", $3 == 0 ? "nothing refused" : "then refused with number " $3
    next
}
{
    words = ""
    bit = 1
    for (i = 1; i <= count; i++) {
        on = int($2 / bit) % 2
        if (on != int(before / bit) % 2)
            words = words (words == "" ? "" : ", ") outputs[i] (on ? " on" : " off")
        bit *= 2
    }
    before = $2
    printf "row %d (%d.%03d s): %s\n", $1, int(($1 - 1) / 1000), ($1 - 1) % 1000, words
}
