# The chart of `./bench curves --chart`, on standard output: time over ratio at multiplier 1, both axes logarithmic. Given are
#   names     an array of the curves in words
#   $curves   a block for each of them, lines `ratio,microseconds`: reset times below 100, operate times above
set terminal svg size 1000,700 background rgb 'white' font 'sans-serif,16'
set datafile separator ','
multiple(hundredths) = hundredths / 100.0
seconds(microseconds) = microseconds / 1e6
array colours[11] = ['#1f4e9e', '#c0392b', '#2e8540', '#8e44ad', '#d68910', '#16a085', '#d6336c', '#5d6d7e', '#7b4b2a', '#0a8fd6', '#6b8e00']

stats $curves using 1 name 'ratio' nooutput # from 0 where a curve has reset times
resets = ratio_min < 100
set xlabel 'current, in multiples of the setting'
set ylabel 'time in seconds, at time multiplier 1.00'
set logscale xy
set xrange [(resets ? 0.1 : 0.9):25]
set xtics (0.1, 0.2, 0.3, 0.5, 0.7, 1, 1.5, 2, 3, 4, 5, 7, 10, 15, 20)
set format y '%g'
set grid xtics ytics mytics linetype 1 linecolor rgb '#bbbbbb', linetype 1 linecolor rgb '#e2e2e2'
set key outside right top
set tmargin 2.5 # for the words above the marks

do for [ratio in '1 20'] {
    set arrow from ratio, graph 0 to ratio, graph 1 nohead linewidth 1.5 dashtype 3 linecolor rgb 'black'
}
set label 'the setting' at 1, graph 1.03 center
set label '20 times' at 20, graph 1.03 center

dashes = "keyentry with lines linewidth 2 dashtype 2 linecolor rgb 'black' title 'reset', for [i = 1:|names|] $curves index i - 1 using ($1 < 100 ? multiple($1) : NaN):(seconds($2)) with lines linewidth 2 dashtype 2 linecolor rgb colours[i] notitle,"
if (!resets) { dashes = "" }
plot for [i = 1:|names|] $curves index i - 1 using ($1 > 100 ? multiple($1) : NaN):(seconds($2)) with lines linewidth 2 linecolor rgb colours[i] title names[i], \
    @dashes \
    NaN notitle
