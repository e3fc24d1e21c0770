-- What was sold of items that were promoted, by region and month.
CREATE TABLE sales (id INT, store INT, item INT, day INT, qty INT) WITH (DISTRIBUTION = HASH(id));
CREATE TABLE stores (store_id INT, region TEXT) WITH (DISTRIBUTION = REPLICATE);
CREATE TABLE items (item_id INT, kind TEXT) WITH (DISTRIBUTION = HASH(item_id));
CREATE TABLE days (day_id INT, month INT) WITH (DISTRIBUTION = REPLICATE);
CREATE TABLE promo (item INT) WITH (DISTRIBUTION = HASH(item));
LOAD sales FROM 'sales.csv';
UPDATE STATISTICS sales;
LOAD stores FROM 'stores.csv';
UPDATE STATISTICS stores;
LOAD items FROM 'items.csv';
UPDATE STATISTICS items;
LOAD days FROM 'days.csv';
UPDATE STATISTICS days;
LOAD promo FROM 'promo.csv';
UPDATE STATISTICS promo;

SELECT region, month, SUM(qty) AS total, COUNT(*) AS n
FROM sales JOIN stores ON store = store_id JOIN items ON item = item_id JOIN days ON day = day_id
WHERE qty > 1 AND EXISTS (SELECT * FROM promo WHERE promo.item = item_id)
GROUP BY region, month
HAVING SUM(qty) > 2
ORDER BY total DESC, region;

-- The kinds that no sale of more than three has.
SELECT kind FROM items WHERE item_id NOT IN (SELECT item FROM sales WHERE qty > 3) ORDER BY kind;
