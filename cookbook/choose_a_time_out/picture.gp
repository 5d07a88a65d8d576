# Detection time against mistakes: a panel each for the median, the 99th percentile and the longest of the detections,
# in it a curve for each period, with a point for each time-out.
set terminal svg size 1280,560 font "sans-serif,14" background rgb "white"
set datafile separator ","
table = sprintf("out/cluster_%d.csv", processes)
set multiplot layout 1,3 title \
    sprintf("%d machines, delays of 1 to 20 ms, 1 %% of the letters lost", processes)
set logscale y
set format y "10^{%L}"
set xrange [0:660]
set grid
# ticks of 1 ms; a process watches all others, so its hours are those of its pairs, over how many these are
rate(mistakes, pair_ticks) = mistakes * 3600000.0 * (processes - 1) / pair_ticks
of(period) = column("detector.period") == period
seen(period) = of(period) && column("mistakes") > 0 ? rate(column("mistakes"), column("pair_ticks")) : NaN
none(period) = of(period) && column("mistakes") == 0 ? rate(3, column("pair_ticks")) : NaN
set key autotitle columnhead top right title "a letter each"
do for [what in "p50 p99 max"] {
    set xlabel "detection time, " . (what eq "p50" ? "median" : what eq "p99" ? "99th percentile" : "longest") . " (ms)"
    if (what eq "p50") { set ylabel "mistakes per process-hour" } else { unset ylabel }
    plot for [p in "50 100 200"] table using (column("detection_" . what)):(seen(p + 0)) \
            with linespoints linewidth 2 pointtype 7 pointsize 0.6 title p . " ms", \
        for [p in "50 100 200"] table using (column("detection_" . what)):(none(p + 0)) \
            with points pointtype 10 linecolor rgb "gray50" title (p eq "50" ? "none seen" : "")
}
unset multiplot
