# The chart of `./bench grade --chart`, on standard output: time over ratio, the ratios below the wanted margin marked, the smallest
# margin written at its ratio. Given are
#   $all, $listed         the lines of every ratio, and of those below the wanted margin
#   upstream, downstream  the curves in words
#   wanted, count         the margin in ticks, and how many ratios are below it
#   smallest, ratio       the smallest margin in ticks, and its ratio
#   above, below          the trip ticks there, upstream and downstream
set terminal svg size 1000,640 background rgb 'white' font 'sans-serif,14'
set datafile separator ','
multiple(hundredths) = hundredths / 100.0
seconds(ticks) = ticks / 1000.0
earlier(a, b) = a < b ? a : b
later(a, b) = a < b ? b : a

set title sprintf('Margin %d ms wanted: %s', wanted, count == 0 ? 'met at every ratio' : sprintf('missed at %d of 1,900 ratios', count))
set xlabel 'current, in multiples of each relay''s own start current'
set ylabel 'time to trip in seconds'
stats $all using (seconds(earlier($2, $3))) name 'first' nooutput
stats $all using (seconds(later($2, $3))) name 'last' nooutput
bottom = first_min / 3 # room below the curves for words
top = last_max * 3
set yrange [bottom:top]
set xrange [1:21]
set logscale xy
set xtics (1, 1.2, 1.5, 2, 3, 4, 5, 7, 10, 15, 20)
set grid xtics ytics mytics linecolor rgb '#d0d0d0'
set key bottom left opaque

# the smallest margin, on the side of its ratio that has room: both curves fall, so below them to the left, above to the right
words = sprintf('smallest margin %d ms, at %.2f', smallest, multiple(ratio))
set arrow from multiple(ratio), seconds(below) to multiple(ratio), seconds(above) nohead linewidth 2 linecolor rgb 'black' front
if (ratio > 450) {
    set label words at multiple(ratio), seconds(earlier(above, below)) right offset character 1, -1.2 front
} else {
    set label words at multiple(ratio), seconds(later(above, below)) left offset character 1.5, 0.3 front
}

# a strip at each ratio below the wanted margin, over the whole height: where the curves meet there is nothing between them
marks = "$listed using (multiple($1)):(top) with impulses linewidth 1.5 linecolor rgb '#f9d5cf' notitle, keyentry with lines linewidth 8 linecolor rgb '#f9d5cf' title 'below the wanted margin',"
if (count == 0) { marks = "" }
plot @marks \
    $all using (multiple($1)):(seconds($2)) with lines linewidth 2 linecolor rgb '#1f4e9e' title 'upstream: ' . upstream, \
    $all using (multiple($1)):(seconds($3)) with lines linewidth 2 linecolor rgb '#2e8540' title 'downstream: ' . downstream
