-- Did the control loop's report ever change but by its own window? A line for each of its windows: reports is 1.
SELECT own_start, count(*) AS runs, count(DISTINCT status || ' ' || steps || ' ' || lost || ' ' || output) AS reports
FROM runs WHERE name = 'control' GROUP BY own_start;

-- Its worst activation: how many ticks after the begin of a period it read the clock, and in how many variants.
SELECT max(late) AS worst_ticks, own_start, count(*) AS runs
FROM runs WHERE name = 'control' GROUP BY own_start ORDER BY worst_ticks DESC;

-- Which variant costs the neighbour most: the one that loses most ticks at the ends of its windows, for each image.
SELECT who, status, max(lost) AS lost, variant FROM runs WHERE name = 'neighbour' GROUP BY who;
