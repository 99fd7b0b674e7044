-- Look at the offset: the third common value equals the first, and the statement is refused at that literal.
CREATE TABLE t (a int4, b text);
STATISTICS t.a DISTINCT 10 NULLS 0 COMMON (1 500000, 2 100000, 1 50000);
SELECT * FROM t;
