-- What an export folder can't hold, and names that a server takes in quotes alone.

CREATE FUNCTION f(integer) RETURNS integer LANGUAGE sql IMMUTABLE AS 'SELECT $1';
CREATE TABLE kept (id integer GENERATED ALWAYS AS IDENTITY PRIMARY KEY, "left" integer DEFAULT f(1), twice integer);
CREATE INDEX kept_by_f ON kept (f("left"));
CREATE INDEX "binary" ON kept (twice);
CREATE VIEW over_f AS SELECT f(1) AS n;
CREATE VIEW over_view AS SELECT n FROM over_f;
CREATE TABLE measures (day date, value integer) PARTITION BY RANGE (day);
CREATE TABLE measures_2026 PARTITION OF measures FOR VALUES FROM ('2026-01-01') TO ('2027-01-01');
INSERT INTO kept ("left", twice) VALUES (1, 2);
