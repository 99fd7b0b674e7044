-- Certificates that are handed in, each with its verdict: a table of the query, and one for each reason for which one is none.
CREATE TABLE x (a int4);
CREATE TABLE y (a int4);
COPY x FROM STDIN WITH (FORMAT CSV, NULL '\N');
1
2
\.
COPY y FROM STDIN WITH (FORMAT CSV, NULL '\N');
1
2
3
\.
CHECK SELECT x.a, y.a FROM x, y;
1 {x} Seq Scan cost=408 rows=2 keys=()
2 {y} Seq Scan cost=412 rows=3 keys=()
3 {x,y} Nested Loop 1 2 cost=1256 rows=6 keys=()
best 3
\.
-- What of a script stands among the lines of a certificate is no statement.
check select x.a, y.a from x, y; 	
SELECT a FROM x;
\.
CHECK SELECT x.a, y.a FROM x, y;
\.
CHECK SELECT x.a, y.a FROM x, y;
1 {x} Seq Scan cost=408 rows=2 keys=()
best 1
x
\.
CHECK SELECT x.a, y.a FROM x, y;
1 {x} Seq Scan cost=408 rows=2 keys=()
2 {y} Seq Scan cost=412 rows=3 keys=()
3 {x,y} Nested Loop 1 4 cost=1256 rows=6 keys=()
best 3
\.
CHECK SELECT x.a, y.a FROM x, y;
1 {x} Seq Scan cost=409 rows=2 keys=()
2 {y} Seq Scan cost=412 rows=3 keys=()
3 {x,y} Nested Loop 1 2 cost=1256 rows=6 keys=()
best 3
\.
CHECK SELECT x.a, y.a FROM x, y;
1 {x} Seq Scan cost=408 rows=2 keys=()
2 {y} Seq Scan cost=412 rows=4 keys=()
3 {x,y} Nested Loop 1 2 cost=1256 rows=6 keys=()
best 3
\.
CHECK SELECT x.a, y.a FROM x, y;
1 {x} Seq Scan cost=408 rows=2 keys=()
2 {y} Seq Scan cost=412 rows=3 keys=()
3 {x,y} Nested Loop 1 2 cost=1256 rows=6 keys=()
best 1
\.
CHECK SELECT x.a, y.a FROM x, y;
1 {x} Seq Scan cost=408 rows=2 keys=()
2 {y} Seq Scan cost=412 rows=3 keys=()
3 {x,y} Nested Loop 1 2 cost=1256 rows=6 keys=()
4 {x,y} Nested Loop 2 1 cost=1660 rows=6 keys=()
best 3
\.
CHECK SELECT x.a, y.a FROM x, y;
1 {x} Seq Scan cost=408 rows=2 keys=()
2 {y} Seq Scan cost=412 rows=3 keys=()
3 {x,y} Nested Loop 2 1 cost=1660 rows=6 keys=()
best 3
\.
CHECK SELECT a FROM x ORDER BY a;
1 {x} Seq Scan cost=408 rows=2 keys=()
best sort 1
\.
CHECK SELECT a FROM x ORDER BY a;
1 {x} Seq Scan cost=408 rows=2 keys=()
best 1
\.
CREATE TABLE t (a int4, b int8);
CREATE INDEX ta ON t (a);
STATISTICS t ROWS 1000 PAGES 100;
CHECK SELECT a FROM t ORDER BY a;
1 {t} Index Only Scan using ta cost=14110 rows=1000 keys=(t.a)
best 1
\.
CHECK SELECT b FROM t ORDER BY a;
1 {t} Seq Scan cost=44000 rows=1000 keys=()
2 {t} Index Scan using ta cost=174110 rows=1000 keys=(t.a)
best sort 1
\.
CHECK SELECT b FROM t ORDER BY a;
1 {t} Seq Scan cost=44000 rows=1000 keys=()
2 {t} Index Scan using ta cost=174110 rows=1000 keys=(t.a)
best 2
\.
-- No plan of this query is admissible, which is no fault of a CHECK.
CREATE TABLE v (a int4);
CREATE TABLE w (b int4);
STATISTICS v ROWS 1000000000 PAGES 1000000000;
STATISTICS w ROWS 1000000000 PAGES 1000000000;
CHECK SELECT * FROM v, w;
1 {v} Seq Scan cost=404000000000 rows=1000000000 keys=()
2 {w} Seq Scan cost=404000000000 rows=1000000000 keys=()
best 1
\.
SELECT a FROM y;
CHECK SELECT a FROM y WHERE a = 3
-- the words of a statement may stand on several lines
;
1 {y} Seq Scan cost=415 rows=1 keys=()
best 1
\.