-- Eight tables in the manner of TPC-H at a scale of 0.2. Their rows are the same on each server of the same major version.
CREATE SCHEMA tpch;
SET search_path = tpch;
-- The rows below meet every foreign key.
SET session_replication_role = replica;
SELECT setseed(0.42);
CREATE TABLE region (r_regionkey int PRIMARY KEY, r_name varchar(25) NOT NULL);
CREATE TABLE nation (n_nationkey int PRIMARY KEY, n_name varchar(25) NOT NULL, n_regionkey int NOT NULL REFERENCES region);
CREATE TABLE supplier (s_suppkey int PRIMARY KEY, s_name varchar(25) NOT NULL, s_nationkey int NOT NULL REFERENCES nation,
    s_acctbal numeric(15,2) NOT NULL);
CREATE TABLE customer (c_custkey int PRIMARY KEY, c_name varchar(25) NOT NULL, c_nationkey int NOT NULL REFERENCES nation,
    c_acctbal numeric(15,2) NOT NULL, c_mktsegment char(10) NOT NULL, c_phone varchar(15));
CREATE TABLE part (p_partkey int PRIMARY KEY, p_name varchar(55) NOT NULL, p_brand char(10) NOT NULL, p_type varchar(25) NOT NULL,
    p_size int NOT NULL, p_container char(10) NOT NULL, p_retailprice numeric(15,2) NOT NULL);
CREATE TABLE partsupp (ps_partkey int NOT NULL REFERENCES part, ps_suppkey int NOT NULL REFERENCES supplier, ps_availqty int NOT NULL,
    ps_supplycost numeric(15,2) NOT NULL, PRIMARY KEY (ps_partkey, ps_suppkey));
CREATE TABLE orders (o_orderkey int PRIMARY KEY, o_custkey int NOT NULL REFERENCES customer, o_orderstatus char(1) NOT NULL,
    o_totalprice numeric(15,2) NOT NULL, o_orderdate date NOT NULL, o_orderpriority varchar(15) NOT NULL, o_shippriority int NOT NULL);
CREATE TABLE lineitem (l_orderkey int NOT NULL REFERENCES orders, l_partkey int NOT NULL, l_suppkey int NOT NULL, l_linenumber int NOT NULL,
    l_quantity numeric(15,2) NOT NULL, l_extendedprice numeric(15,2) NOT NULL, l_discount numeric(15,2) NOT NULL, l_returnflag char(1) NOT NULL,
    l_linestatus char(1) NOT NULL, l_shipdate date NOT NULL, l_commitdate date NOT NULL, l_receiptdate date NOT NULL,
    l_shipmode varchar(10) NOT NULL, PRIMARY KEY (l_orderkey, l_linenumber), FOREIGN KEY (l_partkey, l_suppkey) REFERENCES partsupp);
INSERT INTO region SELECT i, (ARRAY['AFRICA', 'AMERICA', 'ASIA', 'EUROPE', 'MIDDLE EAST'])[i + 1] FROM generate_series(0, 4) i;
INSERT INTO nation SELECT i, 'NATION' || i, i % 5 FROM generate_series(0, 24) i;
INSERT INTO supplier SELECT i, 'Supplier#' || lpad(i::text, 9, '0'), (random() * 24)::int, (random() * 11000 - 1000)::numeric(15,2)
    FROM generate_series(1, 2000) i;
INSERT INTO customer SELECT i, 'Customer#' || lpad(i::text, 9, '0'), (random() * 24)::int, (random() * 11000 - 1000)::numeric(15,2),
    (ARRAY['AUTOMOBILE', 'BUILDING', 'FURNITURE', 'MACHINERY', 'HOUSEHOLD'])[1 + (random() * 4.999)::int % 5],
    '1' || (random() * 24)::int || '-' || (random() * 999999)::int FROM generate_series(1, 30000) i;
INSERT INTO part SELECT i, (ARRAY['green', 'blue', 'red', 'ivory', 'plum'])[1 + i % 5] || ' part ' || i,
    'Brand#' || (1 + i % 5) || (1 + (i / 5) % 5), (ARRAY['STANDARD', 'SMALL', 'MEDIUM', 'LARGE', 'ECONOMY', 'PROMO'])[1 + i % 6]
        || ' ' || (ARRAY['ANODIZED', 'BURNISHED', 'PLATED', 'POLISHED', 'BRUSHED'])[1 + (i / 6) % 5]
        || ' ' || (ARRAY['TIN', 'NICKEL', 'BRASS', 'STEEL', 'COPPER'])[1 + (i / 30) % 5],
    1 + (random() * 49)::int, (ARRAY['SM CASE', 'SM BOX', 'MED BAG', 'LG JAR', 'WRAP PKG'])[1 + (random() * 4.99)::int % 5],
    900 + (i % 1000) / 10.0 FROM generate_series(1, 40000) i;
INSERT INTO partsupp SELECT i, 1 + (i * 7 + j * 501) % 2000, (random() * 9999)::int, (random() * 1000)::numeric(15,2)
    FROM generate_series(1, 40000) i, generate_series(0, 3) j;
INSERT INTO orders SELECT i, 1 + (random() * 29999)::int, CASE WHEN i % 100 < 49 THEN 'F' WHEN i % 100 < 97 THEN 'O' ELSE 'P' END,
    (random() * 400000 + 1000)::numeric(15,2), date '1992-01-01' + (random() * 2400)::int,
    (ARRAY['1-URGENT', '2-HIGH', '3-MEDIUM', '4-NOT SPECIFIED', '5-LOW'])[1 + (random() * 4.99)::int % 5], 0
    FROM generate_series(1, 300000) i;
INSERT INTO lineitem SELECT o_orderkey, p, 1 + (p * 7 + j * 501) % 2000, line, q, q * (900 + (p % 1000) / 10.0), (k % 11) / 100.0,
    CASE WHEN o_orderdate < date '1995-06-17' THEN (CASE WHEN k % 2 = 0 THEN 'R' ELSE 'A' END) ELSE 'N' END, o_orderstatus,
    o_orderdate + 1 + k % 120, o_orderdate + 30 + k % 60, o_orderdate + 2 + k % 150,
    (ARRAY['AIR', 'RAIL', 'SHIP', 'TRUCK', 'MAIL', 'FOB', 'REG AIR'])[1 + k % 7]
    FROM (SELECT o_orderkey, o_orderdate, o_orderstatus, line, 1 + (random() * 39999)::int AS p, (random() * 2.99)::int AS j,
                 1 + (random() * 49)::int AS q, (random() * 100000)::int AS k
          FROM orders, LATERAL generate_series(1, 1 + o_orderkey % 7) line) drawn;
CREATE INDEX lineitem_part ON lineitem (l_partkey, l_suppkey);
