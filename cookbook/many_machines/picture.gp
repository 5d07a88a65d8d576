# What each shard of the study found: the mean detection against the time-out, a mark for each of its points. The three
# rows of marks are the periods.
set terminal svg size 860,560 font "sans-serif,14" background rgb "white"
set datafile separator ","
set title "One study of 45 points in eight shards"
set xlabel "time-out (ms)"
set ylabel "mean detection time (ms)"
set xrange [0:680]
set grid
set key top left
# only the first shard has the names of the columns: 2 is detector.timeout, 3 detections, 4 detection_sum
plot for [k = 1:8] sprintf("out/shard_%d.csv", k) using 2:($4 / $3) skip (k == 1) \
    with points linetype k pointtype k + 3 pointsize 1 title sprintf("shard %d", k)
