-- BETWEEN in ON, over columns of two relations.
CREATE TABLE t (a int4, b text, c bool);
COPY t FROM STDIN WITH (FORMAT CSV, NULL '\N');
1,x,t
2,y,f
\N,z,\N
5,\N,t
\.
CREATE TABLE u (lo int4, hi int4);
COPY u FROM STDIN WITH (FORMAT CSV, NULL '\N');
1,2
2,9
\N,3
\.
SELECT a, lo, hi FROM t JOIN u ON a BETWEEN lo AND hi WHERE hi IN (2, 9) ORDER BY a, lo;
SELECT a, lo FROM t CROSS JOIN u WHERE t.a NOT BETWEEN u.lo AND u.hi ORDER BY a, lo;
STATISTICS t ROWS 1000 PAGES 10;
SELECT t.a, u.lo FROM t JOIN u ON 2 BETWEEN t.a AND u.hi AND t.b IN ('x', 'y');
