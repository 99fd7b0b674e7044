-- Look at the reply: the plan with its cost, then the rows, then their number. NULL is \N.
CREATE TABLE t (a int8, b text);
COPY t FROM STDIN WITH (FORMAT CSV, NULL '\N');
3,three
1,one
2,\N
\.
SELECT * FROM t;
SELECT b FROM t WHERE a > 1 ORDER BY a DESC;
-- EXPLAIN prints the plan alone.
EXPLAIN SELECT b FROM t WHERE a > 1 ORDER BY a DESC;
