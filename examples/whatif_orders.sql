-- Look at which of three indexes each query uses: the cheapest plan follows from the statistics, the rows never do.
CREATE TABLE orders (id int4 NOT NULL, customer int4, total int8, status text, paid bool);
CREATE INDEX orders_customer ON orders (customer, total DESC) INCLUDE (id);
CREATE INDEX orders_open ON orders (total) WHERE status = 'open';
CREATE INDEX orders_status ON orders USING hash (status);

COPY orders FROM STDIN WITH (FORMAT CSV, NULL '\N');
1,7,100,open,f
2,7,50,paid,t
3,8,700,open,f
4,9,\N,open,\N
5,7,250,paid,t
6,8,20,void,f
\.
STATISTICS orders ROWS 100000 PAGES 1500;
STATISTICS orders.customer DISTINCT 5000 NULLS 0;
STATISTICS orders.total DISTINCT 20000 NULLS 1000 HISTOGRAM (0, 50, 200, 1000, 5000);
STATISTICS orders.status DISTINCT 4 NULLS 0 COMMON ('open' 20000, 'void' 5000);

-- The index has every column that is named, in the order that is asked for.
SELECT id, total FROM orders WHERE customer = 7 ORDER BY total DESC;
-- The condition of the partial index is implied; its rows are sorted after it.
SELECT id, customer FROM orders WHERE status = 'open' AND total > 600 ORDER BY customer, id;
SELECT * FROM orders WHERE customer = 8 OR status = 'void';
EXPLAIN SELECT * FROM orders WHERE paid ORDER BY total NULLS FIRST;
EXPLAIN SELECT total FROM orders WHERE status = 'shipped';
