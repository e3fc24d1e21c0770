-- What each region sold. Stores are spread over the nodes by their number, and sales by theirs, so to be joined one side has to move.
CREATE TABLE sales (id INT, store INT, item INT, qty INT) WITH (DISTRIBUTION = HASH(id));
CREATE TABLE stores (store_id INT, region TEXT) WITH (DISTRIBUTION = HASH(store_id));
CREATE TABLE items (item_id INT, kind TEXT) WITH (DISTRIBUTION = REPLICATE);
LOAD sales FROM 'sales.csv';
LOAD stores FROM 'stores.csv';
LOAD items FROM 'items.csv';

-- Nothing is known of the tables yet: each is taken to have 1,000 rows, and it is cheapest to shuffle the sales.
EXPLAIN SELECT region, kind, qty FROM sales JOIN stores ON store = store_id JOIN items ON item = item_id WHERE qty > 1;

UPDATE STATISTICS sales;
UPDATE STATISTICS stores;
UPDATE STATISTICS items;

-- There are few stores: now it is cheapest to broadcast them.
EXPLAIN SELECT region, kind, qty FROM sales JOIN stores ON store = store_id JOIN items ON item = item_id WHERE qty > 1;

SELECT region, kind, qty FROM sales JOIN stores ON store = store_id JOIN items ON item = item_id WHERE qty > 1 ORDER BY region, kind, qty;
