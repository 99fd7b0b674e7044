CREATE TABLE t (date date, time timestamp NOT NULL, zone timestamp without time zone NULL, without timestamp(6) without time zone, varying timestamptz(6) NOT NULL, timestamp TIMESTAMP(6) WITH TIME ZONE, uuid uuid, varchar character varying(3), character varchar);
CREATE INDEX timestamptz ON t (date date_ops, time timestamp_ops DESC, varying timestamptz_ops, uuid uuid_ops, varchar text_ops);
SELECT zone.date FROM t zone WHERE time = '2024-02-29' AND varying < '2024-02-29' AND without IS NULL AND timestamp <> '2024-02-29' ORDER BY uuid;
