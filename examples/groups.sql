-- Look at the top of each plan: the groups are found in any order and sorted at the end, until an index gives the rows in the order of
-- the group keys, where each group ends as the next begins. Then look at the groups themselves, with NULLs.
CREATE TABLE stations (id int4 NOT NULL, region text);
CREATE TABLE readings (station int4 NOT NULL, day int4 NOT NULL, level int4, note text);
COPY stations FROM STDIN WITH (FORMAT CSV, NULL '\N');
1,coast
2,coast
3,hills
4,\N
\.
COPY readings FROM STDIN WITH (FORMAT CSV, NULL '\N');
1,100,7,\N
1,101,\N,\N
2,100,12,\N
3,100,3,\N
3,101,5,\N
4,101,\N,\N
\.
STATISTICS stations ROWS 400 PAGES 4;
STATISTICS stations.id DISTINCT 400 NULLS 0;
STATISTICS stations.region DISTINCT 12 NULLS 20000;
STATISTICS readings ROWS 3000000 PAGES 120000;
STATISTICS readings.station DISTINCT 400 NULLS 0;
STATISTICS readings.day DISTINCT 7500 NULLS 0;
EXPLAIN SELECT station, count(level), min(level), max(level) FROM readings GROUP BY station ORDER BY station;
CREATE INDEX readings_station ON readings (station, day) INCLUDE (level);
EXPLAIN SELECT station, count(level), min(level), max(level) FROM readings GROUP BY station ORDER BY station;
-- Of one station the same index gives the days in order.
EXPLAIN SELECT day, max(level) FROM readings WHERE station = 3 GROUP BY day;
-- count(*) counts rows and count(level) those with a level; a group of NULLs alone has no least level. NULL regions are one group.
SELECT region, count(*), count(level), min(level), max(level) FROM stations s JOIN readings r ON r.station = s.id GROUP BY region ORDER BY region;
-- Without GROUP BY all rows are one group, also where there is none.
SELECT count(*), max(id) FROM stations WHERE region = 'plain';
