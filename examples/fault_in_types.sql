-- Look at the literals: one in quotes takes the type of the other side, and a bare number never is a text.
CREATE TABLE t (a int2, b text);
EXPLAIN SELECT a FROM t WHERE a = '7' AND b = '7';
EXPLAIN SELECT a FROM t WHERE b = 7;
