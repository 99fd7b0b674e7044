-- Look at the offset, which counts bytes from 0: ./pgplan FILE shows its line and a hint below it. This program has no LIKE.
CREATE TABLE t (a int4, b text);
EXPLAIN SELECT a FROM t WHERE b >= 'x' AND b < 'y';
EXPLAIN SELECT a FROM t WHERE b LIKE 'x%';
