-- Eight tables of a web shop, with uuid, enum, timestamptz, numeric and jsonb columns, and partial, expression and GIN indexes. Their
-- rows are the same on each server of the same major version.
CREATE SCHEMA shop;
SET search_path = shop;
-- The rows below meet every foreign key.
SET session_replication_role = replica;
SELECT setseed(0.42);
CREATE TYPE order_status AS ENUM ('new', 'paid', 'packed', 'shipped', 'delivered', 'cancelled', 'returned');
CREATE TABLE users (id uuid PRIMARY KEY, email varchar(120) NOT NULL UNIQUE, full_name text NOT NULL, country char(2) NOT NULL,
    created_at timestamptz NOT NULL DEFAULT now(), deleted_at timestamptz, is_staff boolean NOT NULL DEFAULT false,
    settings jsonb NOT NULL DEFAULT '{}');
CREATE TABLE addresses (id bigint GENERATED ALWAYS AS IDENTITY PRIMARY KEY, user_id uuid NOT NULL REFERENCES users, city varchar(60) NOT NULL,
    zip varchar(12) NOT NULL, is_default boolean NOT NULL);
CREATE TABLE categories (id int PRIMARY KEY, parent_id int REFERENCES categories, name varchar(60) NOT NULL);
CREATE TABLE products (id bigint GENERATED ALWAYS AS IDENTITY PRIMARY KEY, sku varchar(20) NOT NULL UNIQUE,
    category_id int NOT NULL REFERENCES categories, title text NOT NULL, price numeric(10,2) NOT NULL, attrs jsonb NOT NULL,
    active boolean NOT NULL, weight real);
CREATE TABLE orders (id bigint GENERATED ALWAYS AS IDENTITY PRIMARY KEY, user_id uuid NOT NULL REFERENCES users, status order_status NOT NULL,
    placed_at timestamptz NOT NULL, ship_to bigint REFERENCES addresses, total numeric(12,2) NOT NULL, coupon varchar(16), note text);
CREATE TABLE order_items (order_id bigint NOT NULL REFERENCES orders, line smallint NOT NULL, product_id bigint NOT NULL REFERENCES products,
    qty int NOT NULL, unit_price numeric(10,2) NOT NULL, PRIMARY KEY (order_id, line));
CREATE TABLE payments (id uuid PRIMARY KEY, order_id bigint NOT NULL REFERENCES orders, amount numeric(12,2) NOT NULL,
    method varchar(12) NOT NULL, paid_at timestamptz, state smallint NOT NULL);
CREATE TABLE "AuditLog" ("Id" bigint PRIMARY KEY, "What" text);
INSERT INTO users SELECT md5('u' || i)::uuid, 'user' || i || '@example.' || (ARRAY['com', 'org', 'net'])[1 + i % 3], 'Name ' || i,
    (ARRAY['US', 'DE', 'FR', 'GB', 'IT', 'ES', 'NL', 'PL', 'SE', 'JP'])[1 + least(9, (random() * random() * 10)::int)],
    timestamptz '2019-01-01 00:00+00' + i * interval '20 minutes',
    CASE WHEN random() < 0.03 THEN timestamptz '2023-01-01 00:00+00' + i * interval '1 minute' END, i % 1000 = 0,
    jsonb_build_object('theme', i % 3, 'lang', i % 7) FROM generate_series(1, 100000) i;
INSERT INTO addresses (user_id, city, zip, is_default) SELECT md5('u' || (1 + (random() * 99999)::int))::uuid,
    'City' || (random() * random() * 3000)::int, lpad((random() * 99999)::int::text, 5, '0'), i % 3 = 0 FROM generate_series(1, 150000) i;
INSERT INTO categories SELECT i, CASE WHEN i > 20 THEN 1 + i % 20 END, 'Category ' || i FROM generate_series(1, 400) i;
INSERT INTO products (sku, category_id, title, price, attrs, active, weight) SELECT 'SKU' || lpad(i::text, 8, '0'),
    1 + (random() * random() * 399)::int, 'Product ' || i, (random() * random() * 500 + 1)::numeric(10,2),
    jsonb_build_object('color', i % 12), i % 10 <> 0, random() * 20 FROM generate_series(1, 50000) i;
INSERT INTO orders (user_id, status, placed_at, ship_to, total, coupon, note)
    SELECT md5('u' || (1 + (random() * random() * 99999)::int))::uuid,
    (CASE WHEN i < 390000 THEN (CASE WHEN i % 20 = 0 THEN 'cancelled' WHEN i % 33 = 0 THEN 'returned' ELSE 'delivered' END)
          ELSE (ARRAY['new', 'paid', 'packed', 'shipped', 'delivered'])[1 + (random() * 4.99)::int % 5] END)::order_status,
    timestamptz '2021-01-01 00:00+00' + i * interval '4 minutes' + random() * interval '1 day', 1 + (random() * 149999)::int,
    (random() * random() * 2000 + 5)::numeric(12,2), CASE WHEN i % 12 = 0 THEN 'C' || (random() * 200)::int END,
    CASE WHEN i % 50 = 0 THEN 'leave at door' END FROM generate_series(1, 400000) i;
INSERT INTO order_items SELECT o.id, line, 1 + (random() * random() * 49999)::int, 1 + (random() * random() * 9)::int,
    (random() * 300 + 1)::numeric(10,2) FROM orders o, LATERAL generate_series(1, 1 + (o.id % 5)::int) line;
INSERT INTO payments SELECT md5('p' || id)::uuid, id, total,
    (ARRAY['card', 'paypal', 'invoice', 'gift'])[1 + least(3, (random() * random() * 4)::int)], placed_at + random() * interval '2 days',
    CASE WHEN id % 97 = 0 THEN 2 WHEN id % 13 = 0 THEN 1 ELSE 0 END FROM orders WHERE status NOT IN ('new', 'cancelled');
INSERT INTO "AuditLog" SELECT i, 'x' FROM generate_series(1, 1000) i;
CREATE INDEX users_lower_email ON users (lower(email));
CREATE INDEX orders_open ON orders (placed_at) WHERE status IN ('new', 'paid', 'packed');
CREATE INDEX orders_note ON orders (id) WHERE note IS NOT NULL;
CREATE INDEX products_attrs ON products USING gin (attrs);
CREATE INDEX payments_unpaid ON payments (order_id) WHERE state = 2;
CREATE INDEX orders_user ON orders (user_id, placed_at DESC);
