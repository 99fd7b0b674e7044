-- Look at the two verdicts: a certificate as EXPLAIN (TABLE) prints it, and the same with one join left out, which the reason names.
CREATE TABLE device (id int4 NOT NULL, site int4);
CREATE TABLE reading (device int4 NOT NULL, at int8 NOT NULL, value int8);
CREATE INDEX reading_device ON reading (device, at) INCLUDE (value);
STATISTICS device ROWS 2000 PAGES 20;
STATISTICS device.site DISTINCT 40 NULLS 0;
STATISTICS reading ROWS 4000000 PAGES 40000;
STATISTICS reading.device DISTINCT 2000 NULLS 0;
CHECK SELECT at, value FROM device d JOIN reading r ON r.device = d.id WHERE d.site = 9;
1 {d} Seq Scan cost=18000 rows=50 keys=()
2 {r} Seq Scan cost=32000000 rows=4000000 keys=()
3 {r} Index Only Scan using reading_device cost=56000172 rows=4000000 keys=(r.device)
4 {r} for {d} Index Only Scan using reading_device cost=29980 rows=2000 keys=()
5 {d,r} Nested Loop 1 4 cost=1917000 rows=100000 keys=()
6 {d,r} Merge Join by d.id 3 sort 1 cost=60418922 rows=100000 keys=(d.id)
best 5
\.
CHECK SELECT at, value FROM device d JOIN reading r ON r.device = d.id WHERE d.site = 9;
1 {d} Seq Scan cost=18000 rows=50 keys=()
2 {r} Seq Scan cost=32000000 rows=4000000 keys=()
3 {r} Index Only Scan using reading_device cost=56000172 rows=4000000 keys=(r.device)
4 {r} for {d} Index Only Scan using reading_device cost=29980 rows=2000 keys=()
5 {d,r} Merge Join by d.id 3 sort 1 cost=60418922 rows=100000 keys=(d.id)
best 5
\.
-- A verdict ends nothing: the script goes on.
EXPLAIN SELECT at, value FROM device d JOIN reading r ON r.device = d.id WHERE d.site = 9;
