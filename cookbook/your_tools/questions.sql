.mode column
.print What did the links to machine 1 do?
SELECT sender, count(*) AS letters, sum(fate = 'lost') AS lost, round(avg(due - sent), 1) AS mean_delay,
       max(due - sent) AS longest
FROM letters WHERE receiver = 1 GROUP BY sender;

.print
.print How many letters in a row had been lost when somebody was suspected?
SELECT in_a_row, count(*) AS suspicions FROM (
    SELECT (SELECT count(*) FROM letters AS l
            WHERE l.sender = s.subject AND l.receiver = s.observer AND l.fate = 'lost' AND l.sent <= s.tick
              AND l.number > (SELECT coalesce(max(number), 0) FROM letters AS t
                              WHERE t.sender = s.subject AND t.receiver = s.observer
                                AND t.fate = 'taken' AND t.due <= s.tick)) AS in_a_row
    FROM suspicions AS s)
GROUP BY in_a_row;

.print
.print Which is the least time-out without a mistake, of each period, and how long does it take to detect a crash?
SELECT period, min(timeout) AS timeout, p99, round(pair_ticks / 3.6e6, 1) AS pair_hours FROM study
WHERE mistakes = 0 GROUP BY period;
