-- Look at how the cost falls: one query, planned without an index, with one, and with one that holds all that it asks for.
CREATE TABLE events (device int4 NOT NULL, kind text NOT NULL, at int8 NOT NULL, value int8);
CREATE TABLE devices (id int4 NOT NULL, site int4);
STATISTICS events ROWS 50000000 PAGES 500000;
STATISTICS events.kind DISTINCT 12 NULLS 0 COMMON ('tick' 950000, 'alarm' 500);
STATISTICS events.device DISTINCT 20000 NULLS 0;
STATISTICS devices ROWS 20000 PAGES 200;
STATISTICS devices.site DISTINCT 400 NULLS 0;
EXPLAIN SELECT at, value FROM devices d JOIN events e ON e.device = d.id WHERE d.site = 9 AND e.kind = 'alarm' ORDER BY at;
CREATE INDEX events_device ON events (device);
EXPLAIN SELECT at, value FROM devices d JOIN events e ON e.device = d.id WHERE d.site = 9 AND e.kind = 'alarm' ORDER BY at;
CREATE INDEX events_alarm ON events (device, at) INCLUDE (value, kind) WHERE kind = 'alarm';
EXPLAIN SELECT at, value FROM devices d JOIN events e ON e.device = d.id WHERE d.site = 9 AND e.kind = 'alarm' ORDER BY at;
