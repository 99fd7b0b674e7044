CREATE TABLE t (date date, a timestamp, c text);
CREATE INDEX ta ON t (a) WHERE date >= DATE '2024-01-01';
COPY t FROM STDIN WITH (FORMAT CSV, NULL '\N');
2024-02-29,2024-02-29 12:00,x
2023-12-31,\N,2024-02-29
\.
SELECT c FROM t WHERE date = date '2024-02-29';
SELECT c FROM t WHERE timestamp '2024-01-01' < a AND a IS NOT NULL;
SELECT c FROM t WHERE date '2024-02-29' = '2024-02-29' AND date '2024-01-01' > date;
SELECT c FROM t WHERE c = text '2024-02-29' OR int4 ' 7 ' = 7 AND bool 't' = FALSE;
SELECT t.c FROM t JOIN t u ON t.date < u.date AND u.date = date '2024-02-29';
