-- Certificates of version 2, which those of a query with LIMIT or OFFSET are.
CREATE TABLE t (a int8);
COPY t FROM STDIN WITH (FORMAT CSV, NULL '\N');
1
2
3
\.
CHECK SELECT * FROM t LIMIT 2;
certificate 2
1 {t} Seq Scan cost=0..412 rows=3 keys=()
best 1
\.
CHECK SELECT * FROM t OFFSET 1;
certificate 2
1 {t} Seq Scan cost=0..412 rows=3 keys=()
best 1
\.
CHECK SELECT * FROM t LIMIT 2;
certificate 2
1 {t} Seq Scan cost=1..412 rows=3 keys=()
best 1
\.
CHECK SELECT * FROM t LIMIT 2;
1 {t} Seq Scan cost=412 rows=3 keys=()
best 1
\.
CHECK SELECT * FROM t;
certificate 2
1 {t} Seq Scan cost=0..412 rows=3 keys=()
best 1
\.
CREATE INDEX ta ON t (a);
CHECK SELECT * FROM t ORDER BY a LIMIT 1;
certificate 2
1 {t} Seq Scan cost=0..412 rows=3 keys=()
2 {t} Index Only Scan using ta cost=102..508 rows=3 keys=(t.a)
best sort 1
\.
SELECT a FROM t LIMIT 1;
