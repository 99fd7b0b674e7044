-- Twelve queries of the schema tpch, as an application sends them. Each names indexes that serve it, which bench/fitness.py makes for
-- it alone in its second round.

-- t1: orders of a customer segment in a date range
-- index: orders (o_orderdate) INCLUDE (o_orderkey, o_custkey, o_totalprice)
-- index: customer (c_mktsegment, c_custkey) INCLUDE (c_name)
SELECT c.c_name, o.o_orderkey, o.o_totalprice
FROM customer c JOIN orders o ON o.o_custkey = c.c_custkey
WHERE c.c_mktsegment = 'BUILDING' AND o.o_orderdate BETWEEN date '1995-03-01' AND date '1995-03-07'
ORDER BY o.o_totalprice DESC;

-- t2: one customer's lines
-- index: orders (o_custkey, o_orderkey)
-- index: lineitem (l_orderkey) INCLUDE (l_linenumber, l_extendedprice)
SELECT o.o_orderkey, l.l_linenumber, l.l_extendedprice
FROM orders o JOIN lineitem l ON l.l_orderkey = o.o_orderkey WHERE o.o_custkey = 4711;

-- t3: customer by name
-- index: orders (o_custkey) INCLUDE (o_orderkey, o_orderdate)
-- index: customer (c_name, c_custkey)
SELECT o.o_orderkey, o.o_orderdate FROM customer c, orders o
WHERE c.c_custkey = o.o_custkey AND c.c_name = 'Customer#000001234'
ORDER BY o.o_orderdate DESC LIMIT 10;

-- t4: Q3-like shipping priority
-- index: lineitem (l_orderkey, l_shipdate) INCLUDE (l_extendedprice, l_discount)
-- index: orders (o_custkey, o_orderdate) INCLUDE (o_orderkey)
-- index: customer (c_mktsegment, c_custkey)
SELECT l.l_orderkey, sum(l.l_extendedprice * (1 - l.l_discount))
FROM customer c JOIN orders o ON c.c_custkey = o.o_custkey JOIN lineitem l ON l.l_orderkey = o.o_orderkey
WHERE c.c_mktsegment = 'BUILDING' AND o.o_orderdate < date '1995-03-15' AND l.l_shipdate > date '1995-03-15'
GROUP BY l.l_orderkey;

-- t5: parts by brand and size with suppliers
-- index: part (p_size, p_brand, p_partkey)
-- index: partsupp (ps_partkey) INCLUDE (ps_suppkey, ps_supplycost)
-- index: supplier (s_suppkey) INCLUDE (s_name)
SELECT p.p_partkey, s.s_name, ps.ps_supplycost
FROM part p JOIN partsupp ps ON ps.ps_partkey = p.p_partkey JOIN supplier s ON s.s_suppkey = ps.ps_suppkey
WHERE p.p_size = 15 AND p.p_brand = 'Brand#23' ORDER BY ps.ps_supplycost;

-- t6: Q2-like, five tables
-- index: part (p_type, p_size, p_partkey)
-- index: supplier (s_suppkey) INCLUDE (s_name, s_nationkey, s_acctbal)
SELECT s.s_acctbal, s.s_name, n.n_name, p.p_partkey
FROM part p, supplier s, partsupp ps, nation n, region r
WHERE p.p_partkey = ps.ps_partkey AND s.s_suppkey = ps.ps_suppkey AND p.p_size = 15 AND p.p_type = 'SMALL PLATED BRASS'
    AND s.s_nationkey = n.n_nationkey AND n.n_regionkey = r.r_regionkey AND r.r_name = 'EUROPE';

-- t7: Q5-like, six tables
-- index: lineitem (l_orderkey) INCLUDE (l_suppkey, l_extendedprice)
-- index: orders (o_orderdate) INCLUDE (o_orderkey, o_custkey)
-- index: customer (c_nationkey)
SELECT n.n_name, sum(l.l_extendedprice)
FROM customer c, orders o, lineitem l, supplier s, nation n, region r
WHERE c.c_custkey = o.o_custkey AND l.l_orderkey = o.o_orderkey AND l.l_suppkey = s.s_suppkey AND c.c_nationkey = s.s_nationkey
    AND s.s_nationkey = n.n_nationkey AND n.n_regionkey = r.r_regionkey AND r.r_name = 'ASIA'
    AND o.o_orderdate >= date '1994-01-01' AND o.o_orderdate < date '1994-02-01' GROUP BY n.n_name;

-- t8: Q10-like returns
-- index: lineitem (l_returnflag, l_orderkey) INCLUDE (l_extendedprice)
-- index: orders (o_orderdate) INCLUDE (o_orderkey, o_custkey)
SELECT c.c_custkey, c.c_name, l.l_extendedprice, n.n_name
FROM customer c, orders o, lineitem l, nation n
WHERE c.c_custkey = o.o_custkey AND l.l_orderkey = o.o_orderkey AND o.o_orderdate >= date '1993-10-01'
    AND o.o_orderdate < date '1993-10-08' AND l.l_returnflag = 'R' AND c.c_nationkey = n.n_nationkey;

-- t9: Q14-like promo parts of a week
-- index: lineitem (l_partkey, l_shipdate) INCLUDE (l_extendedprice, l_discount)
-- index: part (p_partkey, p_type)
SELECT p.p_type, l.l_extendedprice, l.l_discount
FROM lineitem l JOIN part p ON l.l_partkey = p.p_partkey
WHERE l.l_shipdate >= date '1995-09-01' AND l.l_shipdate < date '1995-09-08' AND p.p_type LIKE 'PROMO%';

-- t10: expensive orders of a supplier
-- index: lineitem (l_suppkey) INCLUDE (l_orderkey)
-- index: orders (o_totalprice) INCLUDE (o_orderkey)
-- index: supplier (s_name, s_suppkey)
SELECT o.o_orderkey, o.o_totalprice
FROM supplier s JOIN lineitem l ON l.l_suppkey = s.s_suppkey JOIN orders o ON o.o_orderkey = l.l_orderkey
WHERE s.s_name = 'Supplier#000000077' AND o.o_totalprice > 395000;

-- t11: late lines with a ship mode
-- index: lineitem (l_receiptdate)
-- index: orders (o_orderkey) INCLUDE (o_orderpriority)
SELECT o.o_orderpriority, l.l_shipmode FROM orders o JOIN lineitem l ON l.l_orderkey = o.o_orderkey
WHERE l.l_shipmode IN ('MAIL', 'SHIP') AND l.l_receiptdate >= date '1994-01-01' AND l.l_receiptdate < date '1994-01-15';

-- t12: top customers by balance
-- index: customer (c_acctbal) INCLUDE (c_name, c_nationkey)
SELECT c.c_name, n.n_name, c.c_acctbal
FROM customer c JOIN nation n ON n.n_nationkey = c.c_nationkey WHERE c.c_acctbal > 9990
ORDER BY c.c_acctbal DESC LIMIT 20;
