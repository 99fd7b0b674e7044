-- SELECTs that group: a line for each group behind the least plan that groups.
CREATE TABLE sale (shop int4, item text, paid int8, card bool);
CREATE INDEX sale_shop ON sale (shop);
COPY sale FROM STDIN WITH (FORMAT CSV, NULL '\N');
1,tea,5,t
2,tea,7,f
1,milk,\N,t
\N,tea,3,\N
2,\N,4,t
\N,milk,9,f
1,tea,5,t
\.
CREATE TABLE shop (id int4 NOT NULL, town text);
CREATE INDEX shop_id ON shop (id);
COPY shop FROM STDIN WITH (FORMAT CSV, NULL '\N');
1,Ulm
2,Bonn
3,\N
4,Ulm
\.
SELECT shop, count(*), count(paid), min(paid), max(paid) FROM sale GROUP BY shop;
SELECT shop, count(*), count(paid), min(paid), max(paid) FROM sale GROUP BY shop ORDER BY shop;
SELECT shop, count(*) FROM sale GROUP BY shop ORDER BY shop DESC;
SELECT shop, count(*) FROM sale GROUP BY shop ORDER BY shop NULLS FIRST;
SELECT count(*), shop, shop FROM sale GROUP BY shop, item ORDER BY item, shop DESC;
SELECT item, count(card), max(item), min(item) FROM sale GROUP BY item;
SELECT card, count(*) FROM sale GROUP BY card ORDER BY card DESC NULLS LAST;
-- Without GROUP BY all tuples are one group, also where there is none; with it there is no group then.
SELECT count(*) FROM sale WHERE shop = 9;
SELECT count(*), count(paid), min(item), max(paid) FROM sale WHERE shop = 9;
SELECT shop, count(*) FROM sale WHERE shop = 9 GROUP BY shop;
SELECT count(*) FROM sale;
SELECT max(paid) FROM sale WHERE paid IS NULL;
-- A column with a constant is no key; no key at all is one group.
SELECT shop, count(*) FROM sale WHERE shop = 1 GROUP BY shop;
SELECT shop, item, count(*) FROM sale WHERE shop = 1 GROUP BY item, shop ORDER BY item DESC;
-- Columns without a call, a column twice, more columns than are shown.
SELECT item FROM sale GROUP BY item;
SELECT item, item FROM sale GROUP BY item, item, shop ORDER BY item;
SELECT * FROM sale GROUP BY shop, item, paid, card ORDER BY paid, shop, item;
SELECT sale.* , count(*) FROM sale GROUP BY card, paid, item, shop ORDER BY shop NULLS FIRST, item, paid DESC;
-- Joins: classes of equal columns are one key.
SELECT town, count(*), max(paid) FROM sale JOIN shop ON sale.shop = shop.id GROUP BY town ORDER BY town;
SELECT id, shop, count(*) FROM sale, shop WHERE shop = id GROUP BY id, shop ORDER BY shop DESC;
SELECT id, count(*), min(item) FROM sale, shop WHERE shop = id GROUP BY id;
SELECT a.town, b.item, count(*) FROM shop a, sale b GROUP BY a.town, b.item ORDER BY b.item, a.town DESC NULLS LAST;
-- The plan alone.
EXPLAIN SELECT town, count(*), max(paid) FROM sale JOIN shop ON sale.shop = shop.id GROUP BY town ORDER BY town DESC;
EXPLAIN SELECT count(*) FROM sale, shop;
STATISTICS sale ROWS 1000000 PAGES 10000;
STATISTICS sale.shop DISTINCT 4 NULLS 0;
STATISTICS sale.item DISTINCT 100000 NULLS 0;
EXPLAIN SELECT shop, count(*) FROM sale GROUP BY shop;
EXPLAIN SELECT shop, count(*) FROM sale GROUP BY shop ORDER BY shop;
EXPLAIN SELECT shop, item, count(*), max(paid) FROM sale GROUP BY item, shop ORDER BY shop;
EXPLAIN SELECT shop, item, count(*), max(paid) FROM sale GROUP BY item, shop ORDER BY shop DESC, item;
EXPLAIN SELECT shop, item, count(*), max(paid) FROM sale GROUP BY shop, item ORDER BY shop;
explain select item, Count(*), MIN(paid) from sale where shop > 2 group by item order by item;
