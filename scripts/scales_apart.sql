CREATE TABLE t (p numeric(10,2), q numeric(4), r numeric(9,2), d date, s timestamp, z timestamptz, a int4, b int8);
EXPLAIN SELECT * FROM t WHERE p = '3.50' AND q = 350 AND q = 7;
EXPLAIN SELECT * FROM t WHERE p = 3 AND q = 3 AND q = 7;
EXPLAIN SELECT * FROM t WHERE d = '2000-01-01' AND s = '2000-01-01' AND z = '2000-01-01' AND z = '2000-01-02';
EXPLAIN SELECT * FROM t WHERE p = 3 AND r = 3 AND r = 7;
EXPLAIN SELECT * FROM t WHERE a = 3 AND b = 3 AND b = 7;
