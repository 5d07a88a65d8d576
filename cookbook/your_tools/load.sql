-- Tables first: a table that .import makes has text alone, where 9 is above 10.
CREATE TABLE trace (tick INTEGER, receiver INTEGER, sender INTEGER, number INTEGER,
                    kind TEXT, sent INTEGER, lost INTEGER, notes TEXT);
CREATE TABLE report (section TEXT, layer INTEGER, observer INTEGER, subject INTEGER, measure TEXT, value NUMERIC);
CREATE TABLE letters (sent INTEGER, sender INTEGER, receiver INTEGER, number INTEGER, kind TEXT, due INTEGER, fate TEXT);
.mode csv
.import --skip 1 out/trace.csv trace
.import --skip 1 out/report.csv report
.import --skip 1 out/letters.csv letters
-- a lost letter is never due
UPDATE letters SET due = NULL WHERE due = '';

-- The columns of a study depend on the keys that it varies, so .import makes the table, and a view makes the numbers.
.import out/study.csv study_text
CREATE VIEW study AS
SELECT CAST("detector.period" AS INTEGER) AS period, CAST("detector.timeout" AS INTEGER) AS timeout,
       CAST(pair_ticks AS INTEGER) AS pair_ticks, CAST(mistakes AS INTEGER) AS mistakes,
       CAST(detections AS INTEGER) AS detections, CAST(detection_p99 AS INTEGER) AS p99
FROM study_text;

-- the notes of a trace, one a row
CREATE VIEW notes AS
WITH RECURSIVE cut (tick, process, note, rest) AS (
    SELECT tick, receiver, '', notes || ' ' FROM trace WHERE notes <> ''
    UNION ALL
    SELECT tick, process, substr(rest, 1, instr(rest, ' ') - 1), substr(rest, instr(rest, ' ') + 1)
    FROM cut WHERE rest <> '')
SELECT tick, process, note FROM cut WHERE note <> '';

-- the suspicions of layer 1
CREATE VIEW suspicions AS
SELECT tick, process AS observer, CAST(substr(note, 11) AS INTEGER) AS subject FROM notes WHERE note LIKE 'suspect:1:%';
