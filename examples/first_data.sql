-- Look at how data are loaded and printed: NULL is \N, texts may be quoted, and data can come in several blocks.
CREATE TABLE customers (id int4 NOT NULL, name text, region int2, active bool);
CREATE TABLE orders (id int8 NOT NULL, customer int4, total int8, note text);

COPY customers FROM STDIN WITH (FORMAT CSV, NULL '\N');
7,Ann,1,t
8,"Smith, Bob",\N,f
9,"Eve ""the quick""",2,\N
\.

COPY orders FROM STDIN WITH (FORMAT CSV, NULL '\N');
1,7,100,
2,7,50,"two
lines"
\.
SELECT * FROM customers;

COPY orders FROM STDIN WITH (FORMAT CSV, NULL '\N');
3,9,-25,\N
\.
SELECT o.note, o.total, id FROM orders AS o;
