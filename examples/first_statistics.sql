-- Look at cost and rows before and after STATISTICS: the estimates change, and never the rows of the reply.
CREATE TABLE items (id int4 NOT NULL, kind text, price int8, sold bool);

COPY items FROM STDIN WITH (FORMAT CSV, NULL '\N');
1,pen,150,t
2,pen,90,f
3,ink,700,\N
4,cap,\N,t
5,ink,-150,f
\.
SELECT id, price FROM items WHERE price > 100 AND NOT sold OR kind = 'pen';
SELECT id FROM items WHERE price |=| 150 AND sold IS NOT NULL;

STATISTICS items ROWS 100000 PAGES 1200;
STATISTICS items.kind DISTINCT 40 NULLS 0 COMMON ('pen' 250000, 'ink' 100000);
STATISTICS items.price DISTINCT 5000 NULLS 50000 HISTOGRAM (0, 100, 500, 1000);
SELECT * FROM items AS i WHERE i.kind = 'pen' AND i.price >= 100;
SELECT id FROM items WHERE price = NULL;
