-- Ties go to fewer indexes and then to the first in the list; an index that is there counts; the order of the list is that of the answer; a
-- window, a partial index, a hash index and a join have their prices; nothing is made.
CREATE TABLE t (a int4, b int4, c text, d int2);
CREATE TABLE u (a int4, b int4);
STATISTICS t ROWS 100000 PAGES 1000;
STATISTICS t.a DISTINCT 50000 NULLS 0;
STATISTICS t.b DISTINCT 1000 NULLS 0;
STATISTICS t.c DISTINCT 90000 NULLS 0;
STATISTICS t.d DISTINCT 4 NULLS 0 COMMON (1 990000, 2 5000);
STATISTICS u ROWS 5000 PAGES 60;
STATISTICS u.a DISTINCT 5000 NULLS 0;
-- Twice the same index: the first of the list.
ADVISE 2 (second ON t (a), first ON t (a)) (SELECT * FROM t WHERE a = 1);
ADVISE 2 (first ON t (a), second ON t (a)) (SELECT * FROM t WHERE a = 1);
-- None of them is of use.
ADVISE 3 (tb ON t (d), ub ON u (b)) (SELECT c FROM t) (SELECT * FROM u);
-- An index that covers a query, and one that does not.
ADVISE 1 (plain ON t (a), covering ON t (a) INCLUDE (b)) (SELECT a, b FROM t WHERE a = 7);
-- A partial index serves the query that has its condition alone.
ADVISE 1 (rare ON t (b) WHERE d = 2, hashed ON t USING hash (c)) (SELECT * FROM t WHERE d = 2 AND b = 3);
ADVISE 1 (rare ON t (b) WHERE d = 2, hashed ON t USING hash (c)) (SELECT * FROM t WHERE c = 'x');
ADVISE 2 (rare ON t (b) WHERE d = 2, hashed ON t USING hash (c)) (SELECT * FROM t WHERE c = 'x') (SELECT * FROM t WHERE d = 2 AND b = 3);
-- The first rows in an order.
ADVISE 1 (ordered ON t (b DESC), other ON t (a)) (SELECT * FROM t ORDER BY b DESC LIMIT 5);
-- A join, by an index on its inner side.
advise 1 (tb ON t (b), ta ON t (a), ua ON u (a)) (SELECT * FROM u JOIN t ON t.a = u.b WHERE u.a = 9);
ADVISE 3 (tb ON t (b), ta ON t (a), ua ON u (a)) (SELECT * FROM u JOIN t ON t.a = u.b WHERE u.a = 9);
-- With an index that is there.
CREATE INDEX ta ON t (a);
ADVISE 2 (tb ON t (b), ua ON u (a)) (SELECT * FROM u JOIN t ON t.a = u.b WHERE u.a = 9);
-- Nothing was made: the names are free, and the plan knows of no other index.
EXPLAIN SELECT * FROM t WHERE c = 'x';
CREATE INDEX hashed ON t USING hash (c);
EXPLAIN SELECT * FROM t WHERE c = 'x';
