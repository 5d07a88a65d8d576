# Mistakes against the time-out, a curve for each period: gnuplot reads what sqlite3 answers.
set terminal svg size 860,560 font "sans-serif,14" background rgb "white"
set datafile separator ","
set title "Five machines, delays of 1 to 20 ms, 5 % of the letters lost"
set xlabel "time-out (ms)"
set ylabel "mistakes for each hour that a pair is watched"
set logscale y
set xrange [50:400]
set grid
set key top right
answer(period) = sprintf("< sqlite3 -csv out/run.db 'SELECT timeout, mistakes * 3600000.0 / pair_ticks FROM study \
    WHERE mistakes > 0 AND period = %s ORDER BY timeout'", period)
plot for [period in "25 50 100"] answer(period) using 1:2 \
    with linespoints linewidth 2 pointtype 7 pointsize 0.6 title "a letter each " . period . " ms"
