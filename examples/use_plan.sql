-- Look at what other plans cost: USE PLAN runs the plan that stands below it, or tells the first thing that is wrong with it. So a
-- plan that a server chose is compared: write it with any numbers, and the reply tells the first that is not its own.
CREATE TABLE customers (id int4 NOT NULL, name text NOT NULL);
CREATE TABLE orders (id int4 NOT NULL, customer int4 NOT NULL, total int8);
CREATE INDEX orders_customer ON orders (customer);
COPY customers FROM STDIN WITH (FORMAT CSV, NULL '\N');
1,Ann
2,Bob
3,Cay
\.
COPY orders FROM STDIN WITH (FORMAT CSV, NULL '\N');
10,3,250
11,1,\N
12,3,90
\.
STATISTICS customers ROWS 1000 PAGES 10;
STATISTICS customers.id DISTINCT 1000 NULLS 0;
STATISTICS customers.name DISTINCT 900 NULLS 0;
STATISTICS orders ROWS 100000 PAGES 1000;
STATISTICS orders.customer DISTINCT 1000 NULLS 0;
SELECT o.id, total FROM customers c JOIN orders o ON o.customer = c.id WHERE c.name = 'Cay';
-- A server that takes the orders of a customer to lie together would fetch them by the index alone. What is that plan's cost here?
USE PLAN SELECT o.id, total FROM customers c JOIN orders o ON o.customer = c.id WHERE c.name = 'Cay';
Nested Loop  (cost=0 rows=112)
  ->  Seq Scan on customers c  (cost=9000 rows=2)
  ->  Index Scan using orders_customer on orders o for c  (cost=0 rows=100)
\.
-- With its own numbers it runs: the same rows by a dearer plan.
USE PLAN SELECT o.id, total FROM customers c JOIN orders o ON o.customer = c.id WHERE c.name = 'Cay';
Nested Loop  (cost=305934 rows=112)
  ->  Seq Scan on customers c  (cost=9000 rows=2)
  ->  Index Scan using orders_customer on orders o for c  (cost=148067 rows=100)
\.
-- Without the index, by a merge of two sorts. The rows come in the order of the merge.
USE PLAN SELECT o.id, total FROM customers c JOIN orders o ON o.customer = c.id WHERE c.name = 'Cay';
Merge Join by c.id  (cost=4509808 rows=112)
  ->  Sort by c.id  (cost=9006 rows=2)
        ->  Seq Scan on customers c  (cost=9000 rows=2)
  ->  Sort by o.customer  (cost=4300000 rows=100000)
        ->  Seq Scan on orders o  (cost=800000 rows=100000)
\.
-- An index scan that is given a row of c stands on the wrong side of the loop: this is no plan of the query.
USE PLAN SELECT o.id, total FROM customers c JOIN orders o ON o.customer = c.id WHERE c.name = 'Cay';
Nested Loop  (cost=0 rows=112)
  ->  Index Scan using orders_customer on orders o for c  (cost=148067 rows=100)
  ->  Seq Scan on customers c  (cost=9000 rows=2)
\.
