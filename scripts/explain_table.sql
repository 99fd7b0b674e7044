-- The table of kept plans behind a plan: a product, a merge of sorted sides, the other shapes of scans, and a long condition.
CREATE TABLE x (a int4);
CREATE TABLE y (a int4);
COPY x FROM STDIN WITH (FORMAT CSV, NULL '\N');
1
2
\.
COPY y FROM STDIN WITH (FORMAT CSV, NULL '\N');
3
1
2
\.
EXPLAIN (TABLE) SELECT x.a, y.a FROM x, y;
explain ( table ) select * from x;
EXPLAIN (TABLE) SELECT x.a FROM x, y WHERE x.a = y.a ORDER BY x.a;
EXPLAIN (TABLE) SELECT * FROM x WHERE NOT (a = 1 AND a = 2) AND (a = 1 OR a = 2 OR NOT (a > 2 OR a < 0));
CREATE TABLE t (a int4, b int8, c text);
STATISTICS t ROWS 100000 PAGES 20000;
STATISTICS t.a DISTINCT 50000 NULLS 0;
STATISTICS t.b DISTINCT 1000 NULLS 10;
CREATE INDEX ta ON t (a DESC) INCLUDE (b);
CREATE INDEX tb ON t (b int8_abs_ops NULLS FIRST);
CREATE INDEX tc ON t USING hash (c);
EXPLAIN (TABLE) SELECT a, b FROM t WHERE a = 5 OR c = 'x' ORDER BY a DESC;
EXPLAIN (TABLE) SELECT a, b FROM t WHERE a > 5 AND b |=| 7 ORDER BY b;
EXPLAIN (TABLE) SELECT u.a FROM t u, x WHERE u.a = x.a AND (u.b |=| 3 OR u.c = 'y');
EXPLAIN SELECT * FROM x;
SELECT a FROM y ORDER BY a;
