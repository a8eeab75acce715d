-- A small shop, to be applied to the empty export:
-- types, tables with keys, a sequence, rows, a view and rights.

CREATE SCHEMA shop;

CREATE TYPE shop.state AS ENUM ('open', 'paid', 'sent');

CREATE DOMAIN shop.amount AS integer
    CONSTRAINT amount_check CHECK (VALUE > 0);

CREATE TABLE shop.customers (
    id integer NOT NULL,
    name text NOT NULL
);

CREATE TABLE shop.orders (
    id integer NOT NULL,
    customer integer NOT NULL,
    state shop.state DEFAULT 'open',
    pieces shop.amount
);

CREATE VIEW shop.open_orders AS
 SELECT o.id
   FROM shop.orders o
  WHERE (o.state = 'open');

COPY shop.customers (id, name) FROM stdin;
1	Ada
2	Grace
\.

COPY shop.orders (id, customer, state, pieces) FROM stdin;
1	1	paid	2
2	2	open	\N
\.

ALTER TABLE ONLY shop.customers
    ADD CONSTRAINT customers_pkey PRIMARY KEY (id);

ALTER TABLE ONLY shop.orders
    ADD CONSTRAINT orders_pkey PRIMARY KEY (id);

ALTER TABLE ONLY shop.orders
    ADD CONSTRAINT orders_customer_fkey FOREIGN KEY (customer) REFERENCES shop.customers(id);

-- Refused, since no customer has the number 3; the rows stay as they are.
COPY shop.orders (id, customer, state, pieces) FROM stdin;
3	3	open	1
\.

GRANT SELECT ON TABLE shop.open_orders TO PUBLIC;
COMMENT ON TABLE shop.orders IS 'what customers ordered';
