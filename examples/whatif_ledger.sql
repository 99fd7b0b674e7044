-- Look at the join as the account gets busier: a row at a time by two indexes, then merges. No row is loaded: sizes are enough.
CREATE TABLE accounts (id int8 NOT NULL, owner int8 NOT NULL, currency text NOT NULL);
CREATE TABLE entries (account int8 NOT NULL, transfer int8 NOT NULL, amount int8 NOT NULL, booked int4 NOT NULL);
CREATE TABLE transfers (id int8 NOT NULL, kind int2 NOT NULL);
CREATE INDEX accounts_id ON accounts (id);
CREATE INDEX entries_account ON entries (account, booked DESC);
CREATE INDEX entries_amount ON entries (amount int8_abs_ops);
CREATE INDEX transfers_id ON transfers (id);
STATISTICS accounts ROWS 1000000 PAGES 9000;
STATISTICS accounts.id DISTINCT 1000000 NULLS 0;
STATISTICS accounts.owner DISTINCT 700000 NULLS 0;
STATISTICS entries ROWS 400000000 PAGES 4000000;
STATISTICS entries.account DISTINCT 900000 NULLS 0 COMMON (1 50000);
STATISTICS entries.booked DISTINCT 3650 NULLS 0 HISTOGRAM (10000, 15000, 17000, 18000, 19000, 19500, 20000);
STATISTICS entries.amount DISTINCT 1000000 NULLS 0;
STATISTICS transfers ROWS 200000000 PAGES 1500000;
STATISTICS transfers.id DISTINCT 200000000 NULLS 0;
-- A usual account, and account 1, which has a twentieth of all entries.
EXPLAIN SELECT e.booked, e.amount, t.kind FROM entries e JOIN transfers t ON t.id = e.transfer WHERE e.account = 77 ORDER BY e.booked DESC;
EXPLAIN SELECT e.booked, e.amount, t.kind FROM entries e JOIN transfers t ON t.id = e.transfer WHERE e.account = 1 ORDER BY e.booked DESC;
-- The index has what is asked for, in the order that is asked for, from either end.
EXPLAIN SELECT booked FROM entries WHERE account = 77 AND booked > 19500 ORDER BY booked DESC;
EXPLAIN SELECT booked FROM entries WHERE account = 77 AND booked > 19500 ORDER BY booked;
-- An index by absolute value finds 5000 and -5000.
EXPLAIN SELECT account FROM entries WHERE amount |=| 5000;
-- One owner's accounts and their last entries: an index on the owner is missing, and then it is there.
EXPLAIN SELECT a.id, e.amount FROM accounts a JOIN entries e ON e.account = a.id WHERE a.owner = 5 AND e.booked >= 19990;
CREATE INDEX accounts_owner ON accounts (owner);
EXPLAIN SELECT a.id, e.amount FROM accounts a JOIN entries e ON e.account = a.id WHERE a.owner = 5 AND e.booked >= 19990;
