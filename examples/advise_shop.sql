-- Look at what ADVISE says as it may make more indexes: of these seven candidates the set of at most so many with which the four
-- queries cost least in all, which is no matter of the best single ones.
CREATE TABLE customers (id int4 NOT NULL, region int2, email text, since int4);
CREATE TABLE orders (id int8 NOT NULL, customer int4 NOT NULL, placed int4, status text);
CREATE TABLE items (order_id int8 NOT NULL, article int4 NOT NULL, price int8, amount int2);
CREATE TABLE articles (id int4 NOT NULL, maker int4, name text);
CREATE TABLE makers (id int4 NOT NULL, land text);
CREATE INDEX customers_id ON customers (id);
STATISTICS customers ROWS 200000 PAGES 2500;
STATISTICS customers.id DISTINCT 200000 NULLS 0;
STATISTICS customers.email DISTINCT 200000 NULLS 0;
STATISTICS customers.region DISTINCT 40 NULLS 0;
STATISTICS orders ROWS 3000000 PAGES 30000;
STATISTICS orders.id DISTINCT 3000000 NULLS 0;
STATISTICS orders.customer DISTINCT 180000 NULLS 0;
STATISTICS orders.placed DISTINCT 2000 NULLS 0 HISTOGRAM (0, 500, 1000, 1500, 2000);
STATISTICS orders.status DISTINCT 5 NULLS 0 COMMON ('done' 900000, 'open' 20000);
STATISTICS items ROWS 12000000 PAGES 120000;
STATISTICS items.order_id DISTINCT 3000000 NULLS 0;
STATISTICS items.article DISTINCT 50000 NULLS 0;
STATISTICS articles ROWS 50000 PAGES 600;
STATISTICS articles.id DISTINCT 50000 NULLS 0;
STATISTICS articles.maker DISTINCT 800 NULLS 0;
STATISTICS makers ROWS 800 PAGES 8;
STATISTICS makers.id DISTINCT 800 NULLS 0;
STATISTICS makers.land DISTINCT 30 NULLS 0;

ADVISE 1 (orders_customer ON orders (customer), orders_open ON orders (placed) WHERE status = 'open', items_order ON items (order_id) INCLUDE (price, amount), items_article ON items (article), articles_maker ON articles (maker), customers_email ON customers USING hash (email), orders_id ON orders (id))
  (SELECT o.id, o.placed FROM customers c JOIN orders o ON o.customer = c.id WHERE c.email = 'ann@example.org' ORDER BY o.placed DESC LIMIT 20)
  (SELECT o.id, i.price, i.amount FROM orders o JOIN items i ON i.order_id = o.id WHERE o.status = 'open' AND o.placed > 1990)
  (SELECT i.order_id FROM makers m JOIN articles a ON a.maker = m.id JOIN items i ON i.article = a.id WHERE m.land = 'Chile')
  (SELECT price FROM items WHERE order_id = 77);
ADVISE 3 (orders_customer ON orders (customer), orders_open ON orders (placed) WHERE status = 'open', items_order ON items (order_id) INCLUDE (price, amount), items_article ON items (article), articles_maker ON articles (maker), customers_email ON customers USING hash (email), orders_id ON orders (id))
  (SELECT o.id, o.placed FROM customers c JOIN orders o ON o.customer = c.id WHERE c.email = 'ann@example.org' ORDER BY o.placed DESC LIMIT 20)
  (SELECT o.id, i.price, i.amount FROM orders o JOIN items i ON i.order_id = o.id WHERE o.status = 'open' AND o.placed > 1990)
  (SELECT i.order_id FROM makers m JOIN articles a ON a.maker = m.id JOIN items i ON i.article = a.id WHERE m.land = 'Chile')
  (SELECT price FROM items WHERE order_id = 77);
ADVISE 10 (orders_customer ON orders (customer), orders_open ON orders (placed) WHERE status = 'open', items_order ON items (order_id) INCLUDE (price, amount), items_article ON items (article), articles_maker ON articles (maker), customers_email ON customers USING hash (email), orders_id ON orders (id))
  (SELECT o.id, o.placed FROM customers c JOIN orders o ON o.customer = c.id WHERE c.email = 'ann@example.org' ORDER BY o.placed DESC LIMIT 20)
  (SELECT o.id, i.price, i.amount FROM orders o JOIN items i ON i.order_id = o.id WHERE o.status = 'open' AND o.placed > 1990)
  (SELECT i.order_id FROM makers m JOIN articles a ON a.maker = m.id JOIN items i ON i.article = a.id WHERE m.land = 'Chile')
  (SELECT price FROM items WHERE order_id = 77);
-- Nothing was made: the advice is what CREATE INDEX may be written for.
CREATE INDEX orders_customer ON orders (customer);
