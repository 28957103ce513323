# The configuration of a record (COMTRADE 1999, ASCII), for `./bench record --pair`. It reads the record's rows; the environment has
#   config     the file of the recorder's own configuration, which was accepted, or nothing
#   frequency  in Hz, or nothing
# A record's currents are in 0.01 % of rated current, so the factor 0.01 gives %.
function line(text) {
    printf "%s\r\n", text
}

# what the recorder says of itself: station and device, frequency, the times of the first sample and of the trigger
function read_config(config,    text, n, part) {
    while ((getline text <config) > 0) {
        sub(/\r$/, "", text)
        n++
        if (n == 1) {
            split(text, part, ",")
            station = part[1]
            device = part[2]
        }
        if (n == 7 && text ~ /[0-9]/)
            hertz = text
        if (n == 10)
            first = text
        if (n == 11)
            trigger = text
    }
}

BEGIN {
    FS = ","
    station = "station not given"
    device = "device and dates not given"
    hertz = "50"
    first = trigger = "01/01/1900,00:00:00.000000"
    if (ENVIRON["config"] != "")
        read_config(ENVIRON["config"])
    if (ENVIRON["frequency"] != "")
        hertz = ENVIRON["frequency"]
    largest = 99998 # of the standard; this league's rows have seven digits
}

{
    for (i = 3; i <= 5; i++)
        if ($i > largest)
            largest = 9999999
}

END {
    line(station "," device ",1999")
    line("11,3A,8D")
    for (i = 1; i <= 3; i++)
        line(i ",L" i " current,L" i ",,%,0.01,0,0,0," largest ",1,1,S")
    count = split("L1 start,L2 start,L3 start,L1 trip,L2 trip,L3 trip,general start,general trip", outputs, ",")
    for (i = 1; i <= count; i++)
        line(i "," outputs[i] "," (i <= 6 ? substr(outputs[i], 1, 2) : "") ",,0")
    line(hertz)
    line(1)
    line("1000," NR)
    line(first)
    line(trigger)
    line("ASCII")
    line(1)
    if (largest > 99998)
        print "bench: a current is above 99998, the most that COMTRADE 1999 has room for: a viewer may not take it" >"/dev/stderr"
}
