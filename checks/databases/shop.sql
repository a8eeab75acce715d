-- A shop: an enum, a domain, six tables with serial columns, keys, indexes, a view, comments, rights and owners.

CREATE SCHEMA shop AUTHORIZATION keeper;
GRANT USAGE ON SCHEMA shop TO clerk, "Guest 1";

CREATE TYPE shop.state AS ENUM ('open', 'paid', 'sent', 'taken back');
CREATE DOMAIN shop.amount AS integer NOT NULL DEFAULT 1 CONSTRAINT amount_is_positive CHECK (VALUE > 0);
COMMENT ON TYPE shop.state IS 'how far an order is';

CREATE TABLE shop.customers (
    id serial PRIMARY KEY,
    name text NOT NULL,
    email character varying(60) UNIQUE,
    since timestamp with time zone DEFAULT now(),
    CONSTRAINT name_is_told CHECK (name <> '')
);
CREATE TABLE shop.products (
    id serial PRIMARY KEY,
    sku character(8) NOT NULL UNIQUE,
    price numeric(10,2) DEFAULT 0.00 NOT NULL,
    picture bytea,
    tags text[] DEFAULT '{}'::text[],
    details jsonb
);
CREATE TABLE shop.orders (
    id serial PRIMARY KEY,
    customer integer REFERENCES shop.customers ON UPDATE CASCADE ON DELETE SET NULL,
    state shop.state DEFAULT 'open',
    day date DEFAULT CURRENT_DATE
);
CREATE TABLE shop.order_lines (
    "order" integer REFERENCES shop.orders ON DELETE CASCADE,
    product integer REFERENCES shop.products DEFERRABLE INITIALLY DEFERRED,
    pieces shop.amount,
    PRIMARY KEY ("order", product)
);
CREATE TABLE shop.payments (
    id bigserial PRIMARY KEY,
    "order" integer NOT NULL REFERENCES shop.orders,
    paid numeric(10,2),
    at timestamp without time zone
);
CREATE TABLE shop.stock (product integer PRIMARY KEY REFERENCES shop.products, pieces integer CHECK (pieces >= 0));

CREATE INDEX orders_by_day ON shop.orders USING btree (day DESC NULLS LAST) INCLUDE (state);
CREATE INDEX customers_by_name ON shop.customers (lower(name) text_pattern_ops);
CREATE UNIQUE INDEX one_open_order ON shop.orders (customer) WHERE state = 'open';
CREATE INDEX products_by_tag ON shop.products USING gin (tags);

CREATE VIEW shop.open_orders AS
    SELECT o.id, c.name, sum(l.pieces) AS pieces, extract(year FROM o.day) AS year
    FROM shop.orders o JOIN shop.customers c ON c.id = o.customer LEFT JOIN shop.order_lines l ON l."order" = o.id
    WHERE o.state = 'open' AND o.day IS DISTINCT FROM '2000-01-01'::date
    GROUP BY o.id, c.id;
-- It groups by a key, so it stands on the key itself.
CREATE VIEW shop.by_customer AS SELECT id, name, email FROM shop.customers GROUP BY id;
CREATE VIEW shop.spent AS
    WITH sums AS (SELECT o.customer, sum(p.paid) AS paid FROM shop.orders o, shop.payments p WHERE p."order" = o.id GROUP BY 1)
    SELECT b.name, sums.paid FROM shop.by_customer b, LATERAL (SELECT paid FROM sums WHERE customer = b.id) sums;

INSERT INTO shop.customers (name, email)
    SELECT 'customer ' || n, CASE WHEN n % 3 > 0 THEN 'c' || n || '@shop.example' END FROM generate_series(1, 100) n;
INSERT INTO shop.products (sku, price, picture, tags, details)
    SELECT 'P' || n, n / 7.0, decode(md5(n::text), 'hex'), ARRAY['tag ' || n % 5, 'a"b\c'], jsonb_build_object('n', n)
    FROM generate_series(1, 50) n;
INSERT INTO shop.orders (customer, state, day)
    SELECT n, (enum_range(NULL::shop.state))[1 + n % 4], '2026-01-01'::date + n FROM generate_series(1, 100) n;
INSERT INTO shop.order_lines SELECT o, p, o + p FROM generate_series(1, 100) o, generate_series(1, 3) p;
INSERT INTO shop.payments ("order", paid, at) SELECT n, n * 1.25, '2026-02-01 10:00'::timestamp + n * '1 hour'::interval
    FROM generate_series(1, 100) n WHERE n % 4 > 0;
INSERT INTO shop.stock SELECT n, n * 10 FROM generate_series(1, 50) n;
-- Rows lie in another order than they were made.
UPDATE shop.customers SET name = upper(name) WHERE id % 10 = 0;
DELETE FROM shop.stock WHERE product % 7 = 0;

COMMENT ON SCHEMA shop IS 'what is sold';
COMMENT ON COLUMN shop.customers.email IS 'where it''s known';
COMMENT ON VIEW shop.open_orders IS E'what waits\nto be paid';
COMMENT ON CONSTRAINT name_is_told ON shop.customers IS 'no one without a name';
COMMENT ON INDEX shop.orders_by_day IS 'newest first';

ALTER TABLE shop.customers OWNER TO keeper;
ALTER TABLE shop.open_orders OWNER TO keeper;
ALTER TYPE shop.state OWNER TO keeper;
GRANT SELECT ON shop.products, shop.stock, shop.open_orders TO PUBLIC;
GRANT SELECT, INSERT, UPDATE ON shop.orders, shop.order_lines TO clerk;
GRANT ALL ON shop.payments TO clerk WITH GRANT OPTION;
GRANT USAGE ON SEQUENCE shop.orders_id_seq TO clerk;
REVOKE ALL ON shop.stock FROM postgres;
REVOKE USAGE ON TYPE shop.amount FROM PUBLIC;
REVOKE ALL ON SCHEMA public FROM PUBLIC;
