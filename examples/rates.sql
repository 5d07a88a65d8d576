-- The rates of each layer of a run of mistakes.toml, from its report. docs/measures.md says how to call it.
CREATE TABLE report (section TEXT, layer INTEGER, observer INTEGER, subject INTEGER,
                     measure TEXT, value NUMERIC);
.mode csv
.import --skip 1 report.csv report

-- of each process the crash tick, or the horizon where that is less or there is none
CREATE TABLE ends (process INTEGER PRIMARY KEY, at INTEGER);
INSERT INTO ends VALUES (1, 2000), (2, 1500), (3, 2000), (4, 2000);

CREATE VIEW pair AS
SELECT layer, observer, subject, min(o.at, s.at) AS e,
       max(value) FILTER (WHERE measure = 'mistakes') AS mistakes,
       max(value) FILTER (WHERE measure = 'mistake_ticks') AS mistake_ticks
FROM report JOIN ends AS o ON o.process = observer JOIN ends AS s ON s.process = subject
WHERE section = 'pair' GROUP BY layer, observer, subject;

.mode column
SELECT layer, sum(mistakes) AS mistakes, sum(e) AS watched,
       round(1000.0 * sum(mistakes) / sum(e), 3) AS 'in 1000 ticks',
       round(1 - 1.0 * sum(mistake_ticks) / sum(e), 5) AS accuracy
FROM pair GROUP BY layer;
