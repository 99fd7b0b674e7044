-- Look at which rows come: a comparison with NULL is Unknown, and only True keeps a row.
CREATE TABLE orders (id int8 NOT NULL, customer int4, total int4, paid bool, note text);
COPY orders FROM STDIN WITH (FORMAT CSV, NULL '\N');
1,7,100,t,first
2,7,\N,f,
3,9,-25,\N,"it's late"
4,\N,0,t,\N
\.
SELECT id FROM orders WHERE total > 0;
SELECT id FROM orders WHERE NOT total > 0;
SELECT id FROM orders WHERE total > 0 OR total IS NULL;
SELECT id, note FROM orders WHERE paid AND note <> '';
SELECT id FROM orders WHERE NOT (paid AND customer = 7);
SELECT id FROM orders o WHERE o.total |=| '25' AND note = 'it''s late';
SELECT id FROM orders WHERE customer = 7 AND customer = 9;
-- Statistics change the estimates and the costs, and never the rows.
STATISTICS orders ROWS 100000 PAGES 1000;
STATISTICS orders.customer DISTINCT 1000 NULLS 250000 COMMON (7 500000, 9 1000);
STATISTICS orders.total DISTINCT 5000 NULLS 0 HISTOGRAM (-100, 0, 50, 1000);
SELECT id FROM orders WHERE customer = 7;
SELECT id FROM orders WHERE customer = 8;
SELECT id FROM orders WHERE total < 50 AND customer IS NOT NULL;
STATISTICS orders ROWS 4 PAGES 1;
SELECT id FROM orders WHERE customer = 7;
STATISTICS orders.paid DISTINCT 2 NULLS 0 COMMON (TRUE 900000, FALSE 100001);
