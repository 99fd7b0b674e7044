-- Look at this beside docs/ARCHITECTURE.md, which follows the SELECT through the program: its scans and joins are the certificate's lines.
CREATE TABLE devices (id int4 NOT NULL, site int4);
CREATE TABLE events (device int4 NOT NULL, kind text NOT NULL, at int8 NOT NULL);
CREATE INDEX devices_id ON devices (id);
CREATE INDEX events_device ON events (device, at);
COPY devices FROM STDIN WITH (FORMAT CSV, NULL '\N');
1,9
2,8
3,9
\.
COPY events FROM STDIN WITH (FORMAT CSV, NULL '\N');
3,alarm,50
1,tick,60
1,alarm,70
2,alarm,80
\.
STATISTICS devices ROWS 20000 PAGES 200;
STATISTICS devices.id DISTINCT 20000 NULLS 0;
STATISTICS devices.site DISTINCT 400 NULLS 0;
STATISTICS events ROWS 1000000 PAGES 10000;
STATISTICS events.kind DISTINCT 12 NULLS 0 COMMON ('tick' 950000, 'alarm' 500);
STATISTICS events.device DISTINCT 20000 NULLS 0;
SELECT d.id, at FROM devices d JOIN events e ON e.device = d.id WHERE d.site = 9 AND NOT e.kind <> 'alarm' ORDER BY e.device, at;
EXPLAIN (TABLE) SELECT d.id, at FROM devices d JOIN events e ON e.device = d.id WHERE d.site = 9 AND NOT e.kind <> 'alarm' ORDER BY e.device, at;
