-- in, between and distinct as columns, tables and aliases.
CREATE TABLE t (in int4, between int4, left int4, distinct int4);
COPY t FROM STDIN WITH (FORMAT CSV, NULL '\N');
1,2,3,4
5,5,5,5
\.
SELECT in, between FROM t WHERE in IN (1) AND between BETWEEN in AND left;
SELECT in.in FROM t in WHERE TRUE;
SELECT in.between FROM t in JOIN t AS between ON in.in = between.in AND in.in NOT IN (5) CROSS JOIN t x;
SELECT distinct FROM t;
SELECT distinct, in FROM t;
SELECT DISTINCT distinct FROM t;
SELECT distinct.in FROM t AS distinct;
SELECT DISTINCT distinct.in FROM t AS distinct ORDER BY in;
SELECT distinct.* FROM t AS distinct;
SELECT count(distinct) FROM t;
SELECT distinct FROM t WHERE distinct IN (4) ORDER BY distinct;
EXPLAIN SELECT DISTINCT in.* FROM t in WHERE in.in BETWEEN in.between AND in.left;
