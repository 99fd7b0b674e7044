-- Look at what is written and what is printed: days, times with an offset, amounts with two digits behind the point, and uuids. A quoted
-- text takes the type of the column beside it; a type's word before it says the type.
CREATE TABLE customers (id uuid NOT NULL, name varchar(80), born date, credit numeric(10, 2));
CREATE TABLE orders (id int8 NOT NULL, customer uuid NOT NULL, placed_at timestamp with time zone NOT NULL, due date, total numeric(10, 2));
CREATE INDEX orders_placed ON orders (placed_at) INCLUDE (total);
CREATE INDEX orders_customer ON orders USING hash (customer);
CREATE INDEX orders_late ON orders (due) WHERE due >= '2024-01-01' AND total > '500.00';
COPY customers FROM STDIN WITH (FORMAT CSV, NULL '\N');
A0EEBC99-9C0B-4EF8-BB6D-6BB9BD380A11,Ann,1984-02-29,1000
a0eebc99-9c0b-4ef8-bb6d-6bb9bd380a12,"Smith, Bob",1999-12-31,-0.50
a0eebc99-9c0b-4ef8-bb6d-6bb9bd380a13,Eve,\N,\N
\.
COPY orders FROM STDIN WITH (FORMAT CSV, NULL '\N');
1,a0eebc99-9c0b-4ef8-bb6d-6bb9bd380a11,2024-02-29 13:05:06.5+02,2024-03-14,500.5
2,a0eebc99-9c0b-4ef8-bb6d-6bb9bd380a12,2024-03-01 00:30+01:00,2024-03-15,19.90
3,a0eebc99-9c0b-4ef8-bb6d-6bb9bd380a11,2024-03-01T08:00Z,2024-02-29,+7
4,a0eebc99-9c0b-4ef8-bb6d-6bb9bd380a13,2023-12-31 23:59:59.999999,\N,1200.00
5,a0eebc99-9c0b-4ef8-bb6d-6bb9bd380a12,2024-02-29,2024-03-01,0.05
\.
STATISTICS customers ROWS 40000 PAGES 500;
STATISTICS customers.id DISTINCT 40000 NULLS 0;
STATISTICS orders ROWS 1000000 PAGES 12000;
STATISTICS orders.id DISTINCT 1000000 NULLS 0;
STATISTICS orders.customer DISTINCT 40000 NULLS 0;
STATISTICS orders.placed_at DISTINCT 990000 NULLS 0 HISTOGRAM ('2020-01-01', '2022-01-01', '2023-01-01 12:00', '2024-01-01', '2025-01-01 00:00+01');
STATISTICS orders.due DISTINCT 1800 NULLS 20000 COMMON ('2024-03-15' 5000) HISTOGRAM ('2020-01-15', '2023-06-01', '2025-01-15');
STATISTICS orders.total DISTINCT 60000 NULLS 0 HISTOGRAM ('0.01', 25, '80.50', 300, '9999.99');

-- Times are printed in UTC. A value is the same however it is written: the day alone is midnight.
SELECT id, placed_at, due, total FROM orders ORDER BY placed_at, id;
-- A uuid is the same in capitals; the hash index finds its orders.
SELECT id, due, total FROM orders WHERE customer = 'A0EEBC99-9C0B-4EF8-BB6D-6BB9BD380A11';
-- A day of birth, and an amount below nothing.
SELECT name, born, credit FROM customers WHERE born > date '1999-12-30' AND credit < 0;
-- A narrow range of times is estimated between two bounds of the histogram, and the index alone has the answer.
SELECT placed_at, total FROM orders WHERE placed_at BETWEEN '2024-02-29' AND timestamptz '2024-02-29 23:59:59.999999' ORDER BY placed_at;
EXPLAIN SELECT placed_at, total FROM orders WHERE placed_at >= timestamptz '2024-02-29 01:00+01' AND placed_at < '2024-03-02' ORDER BY placed_at DESC;
-- The partial index serves the orders that its condition holds for; a number beside a numeric is read as one.
EXPLAIN SELECT id FROM orders WHERE due BETWEEN date '2024-03-01' AND date '2024-03-07' AND total > 500;
EXPLAIN SELECT id FROM orders WHERE due BETWEEN date '2024-03-01' AND date '2024-03-07' AND total > '499.99';
-- The least and the greatest day of each customer.
SELECT name, count(*), min(due), max(due), max(total) FROM customers c, orders o WHERE o.customer = c.id GROUP BY name ORDER BY name;
SELECT min(placed_at), max(placed_at), min(total), count(due) FROM orders WHERE due < date '2024-03-15' OR due IS NULL;
-- Days and times do not compare with each other.
SELECT id FROM orders WHERE placed_at < date '2024-03-01';
