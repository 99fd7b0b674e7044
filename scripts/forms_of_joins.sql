CREATE TABLE a (k int4, v text);
CREATE TABLE b (k int8, w bool);
COPY a FROM STDIN WITH (FORMAT CSV, NULL '\N');
1,x
2,y
\N,z
\.
COPY b FROM STDIN WITH (FORMAT CSV, NULL '\N');
1,t
1,f
3,t
4,\N
\.
SELECT * FROM a JOIN b ON a.k < b.k;
SELECT a.v, w FROM b INNER JOIN a ON w CROSS JOIN a c WHERE c.k IS NULL AND a.k = 1 ORDER BY w, b.k DESC;
SELECT b.*, a.k FROM b, a WHERE a.k > b.k ORDER BY w DESC, b.k;
SELECT a.v, c.v FROM a, b JOIN a AS c ON c.k = b.k AND NOT w WHERE a.k IS NULL;
