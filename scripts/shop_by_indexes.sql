CREATE TABLE customers (id int4 NOT NULL, region int4, name text);
CREATE TABLE orders (id int4 NOT NULL, customer int4, total int8);
CREATE TABLE lines (order_id int4, qty int4, item text);
CREATE INDEX customers_id ON customers (id);
CREATE INDEX orders_customer ON orders (customer);
CREATE INDEX lines_order ON lines (order_id);
COPY customers FROM STDIN WITH (FORMAT CSV, NULL '\N');
7,1,Ann
\.
COPY orders FROM STDIN WITH (FORMAT CSV, NULL '\N');
1,7,100
2,7,50
\.
COPY lines FROM STDIN WITH (FORMAT CSV, NULL '\N');
1,3,pen
1,1,ink
2,2,cap
\.
STATISTICS customers ROWS 1000 PAGES 10;
STATISTICS orders ROWS 10000 PAGES 100;
STATISTICS lines ROWS 20000 PAGES 200;
STATISTICS customers.id DISTINCT 1000 NULLS 0;
STATISTICS orders.customer DISTINCT 1000 NULLS 0;
STATISTICS orders.id DISTINCT 10000 NULLS 0;
STATISTICS lines.order_id DISTINCT 10000 NULLS 0;
SELECT c.name, o.total, l.qty FROM customers c
JOIN orders o ON o.customer = c.id JOIN lines l ON l.order_id = o.id
WHERE c.id = 7 ORDER BY l.qty;
