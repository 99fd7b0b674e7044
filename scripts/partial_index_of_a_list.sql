-- A condition of an index that is a list: which conditions imply it.
CREATE TABLE t (a int4, b int4);
CREATE INDEX tp ON t (b) WHERE a IN (1, 2, 3);
STATISTICS t ROWS 1000 PAGES 10;
STATISTICS t.b DISTINCT 100 NULLS 0;
EXPLAIN SELECT * FROM t WHERE a IN (2, 1) AND b = 7;
EXPLAIN SELECT * FROM t WHERE a = 2 AND b = 7;
EXPLAIN SELECT * FROM t WHERE a IN (1, 4) AND b = 7;
EXPLAIN SELECT * FROM t WHERE a BETWEEN 2 AND 2 AND b = 7;
