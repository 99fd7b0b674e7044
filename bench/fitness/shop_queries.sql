-- Twelve queries of the schema shop, as an application sends them. Each names indexes that serve it, which bench/fitness.py makes for
-- it alone in its second round.

-- s1: login
-- index: users (email) INCLUDE (id, full_name)
SELECT u.id, u.full_name FROM users u WHERE u.email = 'user5000@example.net';

-- s2: a user's orders
-- index: orders (user_id) INCLUDE (id, placed_at, total)
-- index: users (email, id)
SELECT o.id, o.placed_at, o.total FROM users u JOIN orders o ON o.user_id = u.id
WHERE u.email = 'user5000@example.net' ORDER BY o.placed_at DESC LIMIT 20;

-- s3: open orders to pack
-- index: orders (status, user_id) INCLUDE (id, placed_at, ship_to)
-- index: users (id) INCLUDE (email)
-- index: addresses (id) INCLUDE (city)
SELECT o.id, u.email, a.city
FROM orders o JOIN users u ON u.id = o.user_id JOIN addresses a ON a.id = o.ship_to
WHERE o.status = 'paid' ORDER BY o.placed_at LIMIT 50;

-- s4: items of the orders of one day
-- index: order_items (order_id) INCLUDE (product_id, qty, unit_price)
-- index: orders (placed_at) INCLUDE (id)
SELECT o.id, i.product_id, i.qty, i.unit_price FROM orders o JOIN order_items i ON i.order_id = o.id
WHERE o.placed_at >= '2022-06-01' AND o.placed_at < '2022-06-02';

-- s5: who bought a product
-- index: order_items (product_id, order_id)
-- index: orders (id) INCLUDE (user_id)
-- index: users (id) INCLUDE (email)
SELECT DISTINCT u.email
FROM order_items i JOIN orders o ON o.id = i.order_id JOIN users u ON u.id = o.user_id
WHERE i.product_id = 31234;

-- s6: failed payments with their orders
-- index: payments (state, paid_at) INCLUDE (id, order_id)
-- index: users (id) INCLUDE (email)
SELECT p.id, o.id, o.total, u.email
FROM payments p JOIN orders o ON o.id = p.order_id JOIN users u ON u.id = o.user_id
WHERE p.state = 2 AND p.paid_at >= '2023-06-01' AND p.paid_at < '2023-07-01';

-- s7: sales of a category in a week
-- index: order_items (product_id) INCLUDE (order_id, qty, unit_price)
-- index: orders (id, placed_at)
-- index: products (category_id) INCLUDE (id, sku)
SELECT pr.sku, i.qty, i.unit_price
FROM categories c JOIN products pr ON pr.category_id = c.id JOIN order_items i ON i.product_id = pr.id
    JOIN orders o ON o.id = i.order_id
WHERE c.name = 'Category 321' AND o.placed_at BETWEEN '2023-01-02' AND '2023-01-09';

-- s8: large orders with a coupon
-- index: payments (order_id, method)
-- index: orders (coupon, total) INCLUDE (id)
SELECT o.id, o.total, o.coupon FROM orders o JOIN payments p ON p.order_id = o.id
WHERE o.coupon = 'C77' AND o.total > 500.00 AND p.method = 'paypal';

-- s9: users of a country who joined lately and their default address
-- index: addresses (user_id, is_default) INCLUDE (city, zip)
-- index: users (country, created_at) INCLUDE (id, full_name)
SELECT u.full_name, a.city, a.zip FROM users u JOIN addresses a ON a.user_id = u.id
WHERE u.country = 'JP' AND u.created_at > '2022-09-01' AND a.is_default;

-- s10: cancelled orders of staff
-- index: users (is_staff) INCLUDE (id, full_name)
-- index: orders (user_id, status) INCLUDE (id)
SELECT o.id, u.full_name FROM users u JOIN orders o ON o.user_id = u.id
WHERE u.is_staff AND o.status = 'cancelled';

-- s11: payments per method for a month
-- index: payments (paid_at) INCLUDE (order_id, amount, method)
-- index: orders (status)
SELECT p.method, sum(p.amount) FROM payments p JOIN orders o ON o.id = p.order_id
WHERE p.paid_at >= '2023-03-01' AND p.paid_at < '2023-04-01' AND o.status IN ('returned', 'cancelled')
GROUP BY p.method;

-- s12: everything about an order
-- index: payments (order_id) INCLUDE (method)
-- index: order_items (order_id) INCLUDE (line, product_id)
-- index: users (id) INCLUDE (email)
SELECT o.id, u.email, a.city, i.line, pr.title, p.method
FROM orders o JOIN users u ON u.id = o.user_id JOIN addresses a ON a.id = o.ship_to JOIN order_items i ON i.order_id = o.id
    JOIN products pr ON pr.id = i.product_id JOIN payments p ON p.order_id = o.id
WHERE o.id = 123456;
