-- Look at the first line of each plan: the price of the rows asked for. All orders by day cost a scan of the table and a sort; the first
-- ten come by an index, and far down the list the sort wins again. Then rows: those behind the first two, and no more.
CREATE TABLE orders (id int4 NOT NULL, day int4 NOT NULL, total int8);
CREATE INDEX orders_day ON orders (day);
STATISTICS orders ROWS 1000000 PAGES 100000;
EXPLAIN SELECT * FROM orders ORDER BY day;
EXPLAIN SELECT * FROM orders ORDER BY day LIMIT 10;
EXPLAIN SELECT * FROM orders ORDER BY day LIMIT 10 OFFSET 5000;
EXPLAIN SELECT * FROM orders ORDER BY day LIMIT 10 OFFSET 500000;
CREATE TABLE visits (page text NOT NULL, seen int4 NOT NULL);
COPY visits FROM STDIN WITH (FORMAT CSV, NULL '\N');
home,40
about,7
shop,33
help,12
jobs,2
\.
SELECT page, seen FROM visits ORDER BY seen DESC LIMIT 2 OFFSET 2;
