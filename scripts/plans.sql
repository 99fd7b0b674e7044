-- Plans that are written out: good ones, of which the rows are printed, and one for each reason for which one is not run.
CREATE TABLE t (a int4, b int4, s text);
CREATE TABLE u (a int4, c int4);
CREATE INDEX t_a ON t (a);
CREATE INDEX t_ba ON t (b, a);
CREATE INDEX t_s ON t USING hash (s);
CREATE INDEX t_part ON t (a) WHERE b > 2;
CREATE INDEX u_ac ON u (a) INCLUDE (c);
COPY t FROM STDIN WITH (FORMAT CSV, NULL '\N');
1,3,x
2,1,y
2,4,x
\N,3,z
3,\N,x
\.
COPY u FROM STDIN WITH (FORMAT CSV, NULL '\N');
1,10
2,20
2,21
4,\N
\.
-- Plans that are run as they are written, though others cost less.
USE PLAN SELECT t.a, u.c FROM t, u WHERE t.a = u.a;
Nested Loop  (cost=3935 rows=4)
  ->  Seq Scan on t  (cost=420 rows=5)
  ->  Index Scan using u_ac on u for t  (cost=699 rows=1)
\.
USE PLAN SELECT t.a, u.c FROM t, u WHERE t.a = u.a;
Nested Loop  (cost=3872 rows=4)
  ->  Seq Scan on u  (cost=416 rows=4)
  ->  Index Scan using t_a on t for u  (cost=860 rows=1)
\.
USE PLAN SELECT t.a, u.c FROM t, u WHERE t.a = u.a;
Merge Join by t.a  (cost=3748 rows=4)
  ->  Index Scan using t_a on t  (cost=3283 rows=5)
  ->  Sort by u.a  (cost=436 rows=4)
        ->  Seq Scan on u  (cost=416 rows=4)
\.
USE PLAN SELECT t.a, u.c FROM t, u WHERE t.a = u.a;
Nested Loop  (cost=2676 rows=4)
  ->  Seq Scan on u  (cost=416 rows=4)
  ->  Bitmap Heap Scan on t for u  (cost=561 rows=1)
        ->  Bitmap Index Scan on t_a
\.
USE PLAN SELECT a, b FROM t WHERE a = 2 OR b = 3;
Bitmap Heap Scan on t  (cost=3824 rows=2)
  ->  BitmapOr 1
        ->  Bitmap Index Scan on t_a
        ->  Bitmap Index Scan on t_ba
\.
USE PLAN SELECT a FROM t WHERE b > 2 AND a = 2;
Index Scan Backward using t_part on t  (cost=3259 rows=1)
\.
USE PLAN SELECT a FROM t WHERE b > 2 AND a = 2;
Bitmap Heap Scan on t  (cost=3823 rows=1)
  ->  BitmapAnd
        ->  Bitmap Index Scan on t_a
        ->  Bitmap Index Scan on t_ba
\.
USE PLAN SELECT a FROM t WHERE b > 2 AND a = 2;
Index Only Scan using t_ba on t  (cost=1665 rows=1)
\.
USE PLAN SELECT t.a, u.c FROM t, u WHERE t.a = u.a ORDER BY t.a;
Sort by t.a  (cost=5152 rows=4)
  ->  Nested Loop  (cost=5132 rows=4)
        ->  Index Only Scan using u_ac on u  (cost=1676 rows=4)
        ->  Index Scan using t_a on t for u  (cost=860 rows=1)
\.
USE PLAN SELECT s FROM t WHERE s = 'x' AND a > 0;
Index Scan using t_s on t  (cost=3258 rows=1)
\.
USE PLAN SELECT b FROM t ORDER BY b DESC;
Index Only Scan Backward using t_ba on t  (cost=1683 rows=5)
\.
USE PLAN SELECT b FROM t ORDER BY b DESC;
Sort by t.b DESC  (cost=455 rows=5)
  ->  Seq Scan on t  (cost=420 rows=5)
\.
-- An alias may be the word for.
USE PLAN SELECT x.a, for.c, v.a FROM t AS x, u AS for, u AS v WHERE x.a = for.a AND x.b = v.c;
Nested Loop  (cost=15984 rows=4)
  ->  Nested Loop  (cost=2144 rows=16)
        ->  Seq Scan on u for  (cost=416 rows=4)
        ->  Seq Scan on u v  (cost=416 rows=4)
  ->  Index Scan using t_ba on t x for for, v  (cost=861 rows=1)
\.
USE PLAN SELECT x.a, for.c, v.a FROM t AS x, u AS for, u AS v WHERE x.a = for.a AND for.a = v.a;
Merge Join by x.a  (cost=5452 rows=4)
  ->  Merge Join by x.a  (cost=4988 rows=4)
        ->  Index Scan using t_a on t x  (cost=3283 rows=5)
        ->  Index Only Scan using u_ac on u v  (cost=1676 rows=4)
  ->  Sort by for.a  (cost=436 rows=4)
        ->  Seq Scan on u for  (cost=416 rows=4)
\.
-- Texts of no plan: nothing, a blank at an end, another index, another depth, a leading zero, 20 digits, relations out of order, what stands behind.
USE PLAN SELECT t.a, u.c FROM t, u WHERE t.a = u.a;
\.
USE PLAN SELECT t.a, u.c FROM t, u WHERE t.a = u.a;
Nested Loop  (cost=3872 rows=4)
  ->  Seq Scan on u   (cost=416 rows=4)
  ->  Index Scan using t_a on t for u   (cost=860 rows=1)
\.
USE PLAN SELECT t.a, u.c FROM t, u WHERE t.a = u.a;
Nested Loop  (cost=3872 rows=4) 
  ->  Seq Scan on u  (cost=416 rows=4)
  ->  Index Scan using t_a on t for u  (cost=860 rows=1)
\.
USE PLAN SELECT t.a, u.c FROM t, u WHERE t.a = u.a;
Nested Loop  (cost=3872 rows=4)
  ->  Seq Scan on u  (cost=416 rows=4)
  ->  Index Scan using t_x on t for u  (cost=860 rows=1)
\.
USE PLAN SELECT t.a, u.c FROM t, u WHERE t.a = u.a;
Nested Loop  (cost=3872 rows=4)
  ->  Seq Scan on u  (cost=416 rows=4)
        ->  Index Scan using t_a on t for u  (cost=860 rows=1)
\.
USE PLAN SELECT t.a, u.c FROM t, u WHERE t.a = u.a;
Nested Loop  (cost=3872 rows=4)
  ->  Seq Scan on u  (cost=0416 rows=4)
  ->  Index Scan using t_a on t for u  (cost=860 rows=1)
\.
USE PLAN SELECT t.a, u.c FROM t, u WHERE t.a = u.a;
Nested Loop  (cost=3872 rows=4)
  ->  Seq Scan on u  (cost=10000000000000000000 rows=4)
  ->  Index Scan using t_a on t for u  (cost=860 rows=1)
\.
USE PLAN SELECT x.a, for.c, v.a FROM t AS x, u AS for, u AS v WHERE x.a = for.a AND x.b = v.c;
Nested Loop  (cost=15984 rows=4)
  ->  Nested Loop  (cost=2144 rows=16)
        ->  Seq Scan on u for  (cost=416 rows=4)
        ->  Seq Scan on u v  (cost=416 rows=4)
  ->  Index Scan using t_ba on t x for v, for  (cost=861 rows=1)
\.
USE PLAN SELECT t.a, u.c FROM t, u WHERE t.a = u.a;
Nested Loop  (cost=3872 rows=4)
  ->  Seq Scan on u  (cost=416 rows=4)
  ->  Index Scan using t_a on t for u  (cost=860 rows=1)
Seq Scan on t  (cost=420 rows=5)
\.
USE PLAN SELECT t.a, u.c FROM t, u WHERE t.a = u.a;
Nested loop  (cost=3872 rows=4)
  ->  Seq Scan on u  (cost=416 rows=4)
  ->  Index Scan using t_a on t for u  (cost=860 rows=1)
\.
USE PLAN SELECT t.a, u.c FROM t, u WHERE t.a = u.a;
Merge Join by u.a  (cost=3748 rows=4)
  ->  Index Scan using t_a on t  (cost=3283 rows=5)
  ->  Sort by u.a  (cost=436 rows=4)
        ->  Seq Scan on u  (cost=416 rows=4)
\.
USE PLAN SELECT a, b FROM t WHERE a = 2 OR b = 3;
Bitmap Heap Scan on t  (cost=3824 rows=2)
  ->  BitmapOr 2
        ->  Bitmap Index Scan on t_a
        ->  Bitmap Index Scan on t_ba
\.
USE PLAN SELECT t.a, u.c FROM t, u WHERE t.a = u.a;
Nested Loop  (cost=3872 rows=4)
  ->  Seq Scan on u  (cost=416 rows=4)
  ->  Index Scan using t_a on t for u  (cost=860 rows=1)
\.
-- Plans of no plan space, each at the first line that is none: a scan given its own rows, the same relation twice, a plan of one relation alone, an index that does not serve, a plan in no order, a sort on a sort, a relation outside.
USE PLAN SELECT t.a, u.c FROM t, u WHERE t.a = u.a;
Nested Loop  (cost=3872 rows=4)
  ->  Seq Scan on u  (cost=416 rows=4)
  ->  Index Scan using t_a on t for t  (cost=860 rows=1)
\.
USE PLAN SELECT t.a, u.c FROM t, u WHERE t.a = u.a;
Nested Loop  (cost=3935 rows=4)
  ->  Seq Scan on t  (cost=420 rows=5)
  ->  Seq Scan on t  (cost=699 rows=1)
\.
USE PLAN SELECT t.a, u.c FROM t, u WHERE t.a = u.a;
Seq Scan on t  (cost=420 rows=5)
\.
USE PLAN SELECT t.a, u.c FROM t, u WHERE t.a = u.a;
Nested Loop  (cost=1 rows=1)
  ->  Index Scan using u_ac on t  (cost=1 rows=1)
  ->  Seq Scan on u  (cost=1 rows=1)
\.
USE PLAN SELECT t.a, u.c FROM t, u WHERE t.a = u.a;
Nested Loop  (cost=1 rows=1)
  ->  Seq Scan on t  (cost=1 rows=1)
  ->  Index Scan using t_part on t for u  (cost=1 rows=1)
\.
USE PLAN SELECT t.a, u.c FROM t, u WHERE t.a = u.a ORDER BY t.a;
Nested Loop  (cost=3935 rows=4)
  ->  Seq Scan on t  (cost=420 rows=5)
  ->  Index Scan using u_ac on u for t  (cost=699 rows=1)
\.
USE PLAN SELECT t.a, u.c FROM t, u WHERE t.a = u.a ORDER BY t.a;
Sort by t.a  (cost=1 rows=1)
  ->  Sort by t.a  (cost=5152 rows=4)
        ->  Nested Loop  (cost=5132 rows=4)
              ->  Index Only Scan using u_ac on u  (cost=1676 rows=4)
              ->  Index Scan using t_a on t for u  (cost=860 rows=1)
\.
USE PLAN SELECT t.a, u.c FROM t, u WHERE t.a = u.a;
Merge Join by t.a  (cost=1 rows=1)
  ->  Seq Scan on t  (cost=1 rows=1)
  ->  Sort by u.a  (cost=1 rows=1)
        ->  Seq Scan on u  (cost=1 rows=1)
\.
USE PLAN SELECT a FROM t WHERE b > 2 AND a = 2;
Bitmap Heap Scan on t  (cost=3823 rows=1)
  ->  BitmapAnd
        ->  Bitmap Index Scan on t_a
        ->  Bitmap Index Scan on t_s
\.
USE PLAN SELECT a, b FROM t WHERE a = 2 OR b = 3;
Bitmap Heap Scan on t  (cost=3824 rows=2)
  ->  BitmapOr 1
        ->  Bitmap Index Scan on t_a
        ->  Bitmap Index Scan on t_part
\.
-- Numbers that are not their own, the first from the top: the cost before the rows.
USE PLAN SELECT t.a, u.c FROM t, u WHERE t.a = u.a;
Nested Loop  (cost=3871 rows=4)
  ->  Seq Scan on u  (cost=416 rows=4)
  ->  Index Scan using t_a on t for u  (cost=860 rows=1)
\.
USE PLAN SELECT t.a, u.c FROM t, u WHERE t.a = u.a;
Nested Loop  (cost=3872 rows=5)
  ->  Seq Scan on u  (cost=416 rows=4)
  ->  Index Scan using t_a on t for u  (cost=861 rows=1)
\.
USE PLAN SELECT t.a, u.c FROM t, u WHERE t.a = u.a;
Nested Loop  (cost=3871 rows=5)
  ->  Seq Scan on u  (cost=416 rows=4)
  ->  Index Scan using t_a on t for u  (cost=860 rows=1)
\.
USE PLAN SELECT t.a, u.c FROM t, u WHERE t.a = u.a;
Nested Loop  (cost=3872 rows=4)
  ->  Seq Scan on u  (cost=9999999999999999999 rows=4)
  ->  Index Scan using t_a on t for u  (cost=860 rows=1)
\.
USE PLAN SELECT t.a, u.c FROM t, u WHERE t.a = u.a ORDER BY t.a;
Sort by t.a  (cost=5152 rows=4)
  ->  Nested Loop  (cost=0 rows=4)
        ->  Index Only Scan using u_ac on u  (cost=1676 rows=4)
        ->  Index Scan using t_a on t for u  (cost=860 rows=1)
\.
-- A plan of 10^18 or more is told before its numbers.
STATISTICS t ROWS 1000000000 PAGES 10000000;
STATISTICS u ROWS 1000000000 PAGES 10000000;
USE PLAN SELECT t.a FROM t, u;
Nested Loop  (cost=1 rows=1)
  ->  Seq Scan on t  (cost=1 rows=1)
  ->  Seq Scan on u  (cost=1 rows=1)
\.
USE PLAN SELECT t.a FROM t, u;
Nested Loop  (cost=1 rows=1)
  ->  Seq Scan on t  (cost=1 rows=1)
  ->  Seq Scan on t  (cost=1 rows=1)
\.
-- What of a script stands among the lines of a plan is no statement.
use plan select a from t; 	
SELECT a FROM t;
\.
