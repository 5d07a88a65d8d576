# Closed forms as lines, what the sweeps saw as points. `theory` is mistakes and time in mistakes of two processes,
# against delta; `comparison` is how far apart mistakes are against the bound on the detection time, of both detectors.
set datafile separator ","
set grid
set key autotitle columnhead
curves = "4:0 4:100 30:0 30:100"
eta(k) = int(word(curves, k)[1:strstrt(word(curves, k), ":") - 1])
loss(k) = int(word(curves, k)[strstrt(word(curves, k), ":") + 1:*])
of(k) = column("detector.eta") == eta(k) && column("link.loss") == loss(k)
name(k) = sprintf("eta %d, %d %% lost", eta(k), loss(k) / 10)
rate(k) = of(k) ? 1000.0 * column("mistakes") / column("pair_ticks") : NaN
share(k) = of(k) ? 100.0 * column("mistake_ticks") / column("pair_ticks") : NaN
recurrence(x) = column("mistakes") >= 10 ? column("pair_ticks") / column("mistakes") / 1000.0 : NaN
if (what eq "theory") {
    set terminal svg size 860,860 font "sans-serif,14" background rgb "white"
    set multiplot layout 2,1 title "Two processes, delays of 10 to 29 ticks: lines are closed forms, points runs"
    set xrange [0:40]
    set ylabel "mistakes in 1000 ticks"
    plot for [k = 1:4] "out/theory_lines.csv" using 1:k + 1 with lines linewidth 2 linetype k title name(k), \
        for [k = 1:4] "out/two.csv" using (column("detector.delta")):(rate(k)) \
            with points linetype k pointtype 7 pointsize 0.8 notitle
    set xlabel "delta (ticks)"
    set ylabel "time in mistakes (%)"
    plot for [k = 1:4] "out/theory_lines.csv" using 1:k + 5 with lines linewidth 2 linetype k title name(k), \
        for [k = 1:4] "out/two.csv" using (column("detector.delta")):(share(k)) \
            with points linetype k pointtype 7 pointsize 0.8 notitle
    unset multiplot
} else {
    set terminal svg size 860,560 font "sans-serif,14" background rgb "white"
    set title "A letter a second, delays of 100 to 400 ms, 1 % lost"
    set xlabel "bound on the detection time (s)"
    set ylabel "mean mistake recurrence time (s)"
    set logscale y
    set yrange [1:3e6]
    set format y "10^{%T}"
    set key top left
    plot "out/comparison_lines.csv" using 1:2 with lines linewidth 2 linetype 1 title "freshness points", \
        "out/comparison_lines.csv" using 1:3 with lines linewidth 2 linetype 2 title "time-outs", \
        "out/points.csv" using ((column("detector.eta") + column("detector.delta") - 1) / 1000.0):(recurrence(0)) \
            with points linetype 1 pointtype 7 pointsize 0.8 notitle, \
        for [name in "short long"] "out/" . name . ".csv" \
            using ((column("detector.timeout") + 408) / 1000.0):(recurrence(0)) \
            with points linetype 2 pointtype 5 pointsize 0.8 notitle
}
