CREATE TABLE t (a numeric(10,2), b decimal(5, 2), c numeric(4), d numeric(3,3));
COPY t FROM STDIN WITH (FORMAT CSV, NULL '\N');
12.5,0,7,0.5
-0.05,999.99,-9999,-0.999
\N,+0012.00,0.0,0.000
-0,12.500, 3 ,\N
99999999.99,-1,9999,0
\.
SELECT * FROM t ORDER BY a DESC, b;
SELECT a FROM t WHERE a > -1 AND a <= '12.50';
SELECT a, b FROM t WHERE b < a OR c = 0;
SELECT min(a), max(b), count(c), max(d) FROM t WHERE d < '0.5';
