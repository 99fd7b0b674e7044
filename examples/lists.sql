-- Look at the plans: IN with several values is a bitmap with an arm for each, BETWEEN two bounds of one index, and DISTINCT a plan that
-- groups. Then look at the rows, with NULLs.
CREATE TABLE tickets (id int4 NOT NULL, state text NOT NULL, owner int4, opened int4 NOT NULL);
CREATE INDEX tickets_state ON tickets (state);
CREATE INDEX tickets_opened ON tickets (opened) INCLUDE (id);
STATISTICS tickets ROWS 2000000 PAGES 25000;
STATISTICS tickets.state DISTINCT 6 NULLS 0 COMMON ('closed' 990000, 'open' 5000, 'waiting' 3000, 'stuck' 300, 'new' 200);
STATISTICS tickets.owner DISTINCT 400 NULLS 100000;
STATISTICS tickets.opened DISTINCT 3000 NULLS 0 HISTOGRAM (1, 750, 1500, 2250, 2900, 2980, 3000);
EXPLAIN SELECT id FROM tickets WHERE state IN ('new', 'stuck');
EXPLAIN SELECT id FROM tickets WHERE opened BETWEEN 2990 AND 2995;
-- IN is the OR and BETWEEN the AND that it stands for, so an index with a condition serves both spellings.
CREATE INDEX tickets_mine ON tickets (owner) WHERE state IN ('new', 'stuck', 'open');
EXPLAIN SELECT id FROM tickets WHERE owner = 17 AND state IN ('open', 'new');
EXPLAIN SELECT id FROM tickets WHERE owner = 17 AND (state = 'new' OR state = 'open');
-- DISTINCT groups by what is shown: both queries have one plan.
EXPLAIN SELECT DISTINCT state FROM tickets;
EXPLAIN SELECT state FROM tickets GROUP BY state;
-- NULL makes no condition true; NOT IN of a list with NULL is never true. Equal rows are shown once, NULL beside NULL too.
CREATE TABLE t (a int4, b text);
COPY t FROM STDIN WITH (FORMAT CSV, NULL '\N');
1,x
2,y
1,x
\N,z
\.
SELECT a, b FROM t WHERE a IN (1, 3, NULL);
SELECT a, b FROM t WHERE a NOT IN (1, 3);
SELECT a, b FROM t WHERE a NOT IN (1, NULL);
SELECT a, b FROM t WHERE a NOT BETWEEN 2 AND 9;
SELECT DISTINCT a FROM t ORDER BY a;
SELECT DISTINCT * FROM t;
