-- Eight of ten orders are open. Before ANALYZE one is expected, and a nested loop is enough; after it the rows of both tables
-- are sorted and merged. Common values, a histogram, NULLs and the number of different values are those of the rows.
CREATE TABLE orders (id int4, status text, price int4);
COPY orders FROM STDIN WITH (FORMAT csv, NULL '\N');
1,open,10
2,open,10
3,open,10
4,open,20
5,open,20
6,open,30
7,open,70
8,open,900
9,paid,\N
10,lost,\N
\.
CREATE TABLE items (order_id int4, name text);
COPY items FROM STDIN WITH (FORMAT csv, NULL '\N');
8,lamp
7,desk
6,chair
1,lamp
1,desk
\.
EXPLAIN SELECT * FROM orders, items WHERE id = order_id AND status = 'open';
EXPLAIN SELECT * FROM orders WHERE price IS NULL;
ANALYZE orders;
ANALYZE items;
SELECT id, name, price FROM orders, items WHERE id = order_id AND status = 'open' ORDER BY id, name;
EXPLAIN SELECT * FROM orders WHERE status = 'paid';
EXPLAIN SELECT * FROM orders WHERE price = 10;
EXPLAIN SELECT * FROM orders WHERE price > 60;
EXPLAIN SELECT * FROM orders WHERE price IS NULL;
