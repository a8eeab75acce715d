-- 20 MB of rows in two tables.

CREATE TABLE readings (id bigint PRIMARY KEY, sensor integer NOT NULL, at timestamp with time zone, value double precision);
INSERT INTO readings
    SELECT n, n % 1000, '2026-01-01 00:00+00'::timestamptz + n * '1 second'::interval, sin(n) FROM generate_series(1, 200000) n;
CREATE TABLE notes (id integer PRIMARY KEY, body text);
INSERT INTO notes SELECT n, repeat(md5(n::text), 30) FROM generate_series(1, 9000) n;
CREATE INDEX readings_by_sensor ON readings (sensor, at);
