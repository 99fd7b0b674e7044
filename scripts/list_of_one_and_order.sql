-- IN with one value gives its column a constant, so the index behind it has the order.
CREATE TABLE t (a int4, b int4);
CREATE INDEX tab ON t (a, b);
STATISTICS t ROWS 1000 PAGES 10;
STATISTICS t.a DISTINCT 100 NULLS 0;
EXPLAIN SELECT * FROM t WHERE a IN (5) ORDER BY b;
