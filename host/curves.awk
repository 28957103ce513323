# The table of `./bench curves`, from the program's lines `ratio,microseconds`. Given are
#   name        the curve
#   multiplier  in hundredths
# The operate times stand at the ratios that a relay's manual prints, the reset times at those of source document 001's table 2-1
# and at no current.
function head(what) {
    printf "\n%17s  %20s\n", "times the setting", what
}

# rounded up to a microsecond, as the time itself is
function row(ratio,    microseconds, seconds) {
    microseconds = int((time[ratio] * multiplier + 99) / 100)
    seconds = int(microseconds / 1000000)
    printf "%17.2f  %13d.%06d\n", ratio / 100, seconds, microseconds - seconds * 1000000
}

BEGIN {
    FS = ","
}

{
    time[$1] = $2
}

END {
    printf "%s, time multiplier %d.%02d\n", name, int(multiplier / 100), multiplier % 100
    head("operates after, s")
    count = split("110,120,150,200,300,500,700,1000,1500,2000", ratios, ",")
    for (i = 1; i <= count; i++)
        row(ratios[i])
    if (!(0 in time)) # no reset time: IEC
        exit
    head("resets after, s")
    count = split("0,10,30,50,60,70,80,90,95,98", ratios, ",")
    for (i = 1; i <= count; i++)
        row(ratios[i])
}
