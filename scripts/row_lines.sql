CREATE TABLE a (n int8, s text, f bool);
COPY a FROM STDIN WITH (FORMAT CSV, NULL '\N');
7, a b,t
-12,\N,f
\.
SELECT * FROM a;
CREATE TABLE b (p text, q text, r text);
COPY b FROM STDIN WITH (FORMAT CSV, NULL '\N');
"a,b","say ""x""","a
b"
\.
SELECT * FROM b;
CREATE TABLE c (s text);
COPY c FROM STDIN WITH (FORMAT CSV, NULL '\N');
""
\.
SELECT * FROM c;
CREATE TABLE d (s text, n int8);
COPY d FROM STDIN WITH (FORMAT CSV, NULL '\N');
,-9223372036854775808
\.
SELECT * FROM d;
