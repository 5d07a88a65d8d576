# How far apart mistakes are against the longest detection, a curve for each detector.
set terminal svg size 860,560 font "sans-serif,14" background rgb "white"
set datafile separator ","
set title "A letter each 100 ms, delays of 1 to 39 ms, 1 % lost"
set xlabel "longest detection time (ms)"
set ylabel "mean mistake recurrence time (s)"
set logscale y
set grid
set key top left
recurrence(x) = column("mistakes") > 0 ? column("pair_ticks") / column("mistakes") / 1000.0 : NaN
set key autotitle columnhead
plot "out/freshness.csv" using (column("detection_max")):(recurrence(0)) \
        with linespoints linewidth 2 pointtype 7 pointsize 0.6 title "freshness points, by delta", \
    "out/time_outs.csv" using (column("detection_max")):(recurrence(0)) \
        with linespoints linewidth 2 pointtype 5 pointsize 0.6 title "time-outs, by time-out"
