-- Look at the lines behind each plan: every path that was worth keeping, by number, from which the cost of the best plan can be checked by hand.
CREATE TABLE device (id int4 NOT NULL, site int4);
CREATE TABLE reading (device int4 NOT NULL, at int8 NOT NULL, value int8);
CREATE INDEX reading_device ON reading (device, at) INCLUDE (value);
STATISTICS device ROWS 2000 PAGES 20;
STATISTICS device.site DISTINCT 40 NULLS 0;
STATISTICS reading ROWS 4000000 PAGES 40000;
STATISTICS reading.device DISTINCT 2000 NULLS 0;
EXPLAIN (TABLE) SELECT at, value FROM device d JOIN reading r ON r.device = d.id WHERE d.site = 9;
-- With LIMIT each cost is a pair, before the first row and in all, and a path that starts early is worth keeping too.
EXPLAIN (TABLE) SELECT at, value FROM device d JOIN reading r ON r.device = d.id WHERE d.site = 9 LIMIT 10;
