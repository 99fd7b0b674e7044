-- Certificates of one query that were changed by hand, each told for what was changed.
CREATE TABLE x (a int4);
CREATE TABLE y (a int4);
COPY x FROM STDIN WITH (FORMAT CSV, NULL '\N');
1
2
\.
COPY y FROM STDIN WITH (FORMAT CSV, NULL '\N');
1
2
3
\.
CHECK SELECT x.a, y.a FROM x, y;
1 {x} Seq Scan cost=408 rows=2 keys=()
2 {y} Seq Scan cost=412 rows=3 keys=()
3 {x,y} Nested Loop 3 2 cost=1256 rows=6 keys=()
best 3
\.
CHECK SELECT x.a, y.a FROM x, y;
1 {x} Seq Scan cost=408 rows=2 keys=()
2 {y} Seq Scan cost=412 rows=3 keys=()
3 {x} Nested Loop 1 2 cost=1256 rows=6 keys=()
best 3
\.
CHECK SELECT x.a, y.a FROM x, y;
1 {x} Seq Scan cost=408 rows=2 keys=()
2 {y} Seq Scan cost=412 rows=3 keys=()
3 {x,y} Nested Loop 1 2 cost=1256 rows=7 keys=()
best 3
\.
CHECK SELECT x.a, y.a FROM x, y;
1 {x} Seq Scan cost=408 rows=2 keys=()
2 {y} Seq Scan cost=412 rows=3 keys=()
3 {x,y} Nested Loop 1 2 cost=1256 rows=6 keys=()
best 1
\.
CHECK SELECT x.a, y.a FROM x, y;
1 {x} Seq Scan cost=408 rows=2 keys=()
2 {y} Seq Scan cost=412 rows=3 keys=()
3 {x,y} Nested Loop 1 2 cost=1256 rows=6 keys=()
best sort 3
\.
CHECK SELECT x.a, y.a FROM x, y;
best 1
\.
CHECK SELECT x.a, y.a FROM x, y;
1 {x} Seq Scan cost=408 rows=2 keys=()
2 {y} Seq Scan cost=412 rows=3 keys=()
3 {x,y} Nested Loop 1 2 cost=1257 rows=6 keys=()
best 3
\.
CHECK SELECT x.a, y.a FROM x, y;
1 {x} for {y} Seq Scan cost=408 rows=2 keys=()
2 {y} Seq Scan cost=412 rows=3 keys=()
3 {x,y} Nested Loop 1 2 cost=1256 rows=6 keys=()
best 3
\.
CHECK SELECT x.a, y.a FROM x, y;
1 {x} Seq Scan cost=408 rows=2 keys=()
2 {y} Seq Scan cost=412 rows=3 keys=()
3 {x,y} Nested Loop 2 1 cost=1660 rows=6 keys=()
best 3
\.
CHECK SELECT x.a, y.a FROM x, y;
1 {x} Seq Scan cost=408 rows=2 keys=(x.a)
2 {y} Seq Scan cost=412 rows=3 keys=()
3 {x,y} Nested Loop 1 2 cost=1256 rows=6 keys=()
best 3
\.
CHECK SELECT x.a, y.a FROM x, y;
1 {y} Seq Scan cost=412 rows=3 keys=()
2 {x} Seq Scan cost=408 rows=2 keys=()
3 {x,y} Nested Loop 2 1 cost=1256 rows=6 keys=()
best 3
\.
CHECK SELECT x.a, y.a FROM x, y;
1 {x} Seq Scan cost=408 rows=2 keys=()
2 {y} Seq Scan cost=412 rows=3 keys=()
3 {x,y} Nested Loop 1 2 cost=1256 rows=6 keys=()
best 4
\.
CHECK SELECT x.a, y.a FROM x, y;
1 {x} Seq Scan cost=408 rows=2 keys=()
2 {y} Seq Scan cost=412 rows=3 keys=()
3 {x,y} Nested Loop 1 2 cost=1256 rows=6 keys=()
best 3
\.
