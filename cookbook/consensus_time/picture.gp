# Of consensus, against the time-out, a curve for each loss: by when all have decided in half of the runs, which runs in
# which one never does counting as later than all others; in which round at most; or how often all decide.
set terminal svg size 860,560 font "sans-serif,14" background rgb "white"
set datafile separator ","
set title "Five processes, the first coordinator crashed at the start"
set xlabel "time-out (ms)"
set grid
set key top left
of(loss) = column("link.loss") == loss
last(x) = strlen(stringcolumn("last_decision_p50")) > 0 ? column("last_decision_p50") : NaN
share(x) = 100.0 * column("all_decided") / column("runs")
rounds(x) = column("rounds_max")
if (what eq "decision") set ylabel "all have decided, median of the runs (ms)"
if (what eq "rounds") set ylabel "greatest round of 500 runs"; set yrange [0:]; set key top right
if (what eq "decided") set ylabel "runs in which all decide (%)"; set yrange [0:105]; set key bottom left
shown(x) = what eq "decision" ? last(x) : what eq "rounds" ? rounds(x) : share(x)
height(loss) = of(loss) ? shown(0) : NaN
set key autotitle columnhead
plot for [l in "0 5 20 50"] "out/consensus.csv" using (column("detector.timeout")):(height(l + 0)) \
    with linespoints linewidth 2 pointtype 7 pointsize 0.5 title l . " of 1000 letters lost"
