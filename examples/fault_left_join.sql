-- Look at the offset: there is no outer join, and LEFT behind a table's name is a syntax fault, so that none is read as an inner one. The
-- first two queries are inner joins; behind AS, left is an alias like any other.
CREATE TABLE a (x int4);
CREATE TABLE b (x int4);
COPY a FROM STDIN WITH (FORMAT CSV, NULL '\N');
1
2
\.
COPY b FROM STDIN WITH (FORMAT CSV, NULL '\N');
2
\.
SELECT * FROM a JOIN b ON a.x = b.x;
SELECT * FROM a AS left JOIN b ON left.x = b.x;
SELECT * FROM a LEFT JOIN b ON a.x = b.x;
