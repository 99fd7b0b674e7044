-- Look at the joins of three tables: nested loops with scans by an index that are given a row of the other side ("for o"), and merges of
-- sorted sides.
CREATE TABLE customers (id int4 NOT NULL, name text, region int2);
CREATE TABLE orders (id int4 NOT NULL, customer int4 NOT NULL, status text);
CREATE TABLE items (order_id int4 NOT NULL, line int2 NOT NULL, article text, price int8);
CREATE INDEX customers_id ON customers (id);
CREATE INDEX orders_id ON orders (id);
CREATE INDEX orders_customer ON orders (customer, id);
CREATE INDEX orders_open ON orders (customer) WHERE status = 'open';
CREATE INDEX items_order ON items (order_id, line) INCLUDE (price);

COPY customers FROM STDIN WITH (FORMAT CSV, NULL '\N');
1,Ann,1
2,"Smith, Bob",2
3,Eve,1
4,Carl,\N
\.
COPY orders FROM STDIN WITH (FORMAT CSV, NULL '\N');
10,1,open
11,2,paid
12,1,paid
13,3,open
14,2,\N
\.
COPY items FROM STDIN WITH (FORMAT CSV, NULL '\N');
10,1,lamp,40
10,2,desk,250
11,1,chair,90
12,1,lamp,40
13,1,shelf,120
13,2,lamp,\N
\.
STATISTICS customers ROWS 5000 PAGES 40;
STATISTICS customers.id DISTINCT 5000 NULLS 0;
STATISTICS customers.region DISTINCT 10 NULLS 50000;
STATISTICS orders ROWS 40000 PAGES 300;
STATISTICS orders.id DISTINCT 40000 NULLS 0;
STATISTICS orders.customer DISTINCT 5000 NULLS 0;
STATISTICS orders.status DISTINCT 3 NULLS 1000 COMMON ('open' 20000);
STATISTICS items ROWS 160000 PAGES 1600;
STATISTICS items.order_id DISTINCT 40000 NULLS 0;

-- One customer: each table is reached by an index, with the row before it given.
SELECT c.name, o.id, i.article, i.price
  FROM customers c JOIN orders o ON o.customer = c.id JOIN items i ON i.order_id = o.id
  WHERE c.id = 1 ORDER BY o.id, i.line;
-- All of two tables in the order of what joins them: two sorted sides are merged.
SELECT o.id, line, price FROM orders AS o, items WHERE order_id = o.id ORDER BY o.id, line;
-- The partial index answers for the open orders alone; a comma list and WHERE say what JOIN and ON do.
SELECT c.name, o.id FROM customers c, orders o WHERE o.customer = c.id AND o.status = 'open' AND c.region = 1 ORDER BY c.name DESC;
-- A table beside itself, and a join without a condition.
SELECT a.name, b.name FROM customers a INNER JOIN customers b ON a.region = b.region AND a.id < b.id CROSS JOIN orders o WHERE o.id = 13;
EXPLAIN SELECT * FROM items i, orders o, customers c WHERE i.order_id = o.id AND o.customer = c.id AND i.price > 100 ORDER BY c.id;
