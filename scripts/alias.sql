CREATE TABLE t (a int4, b text);
COPY t FROM STDIN WITH (FORMAT CSV, NULL '\N');
1,x
\.
SELECT b, a, u.b FROM t u;
