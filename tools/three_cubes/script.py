"""The cubes, and the statements that were chosen by hand, for each rule and its edges."""

CUBES = """\
# Orders of shops, readings of gauges, and tallies, which have no dimension.
cube orders
dim shop\ttext 6 1
metric units
  dim product text 5 2
dim day int 030 7

dim hour int 24 6
metric cents
#
cube gauges\r
dim station int 10 3\r
dim minute int 1440 60
metric level
cube tallies
metric n"""

OPENING = """\
-- ---- no rows yet
SELECT SUM(units), MIN(units), MAX(cents), AVG(cents), COUNT(*) FROM orders;
SELECT shop, COUNT(*) FROM orders GROUP BY shop;
select count ( * ) from tallies having count(*) = 0;
SELECT SUM(n), COUNT(*) FROM tallies HAVING SUM(n) BETWEEN -9 AND 9; -- NULL passes no test
SELECT SUM(n) FROM tallies LIMIT 0;
SHOW EPOCHS; FLUSH; PURGE;

-- ---- rows, and rows that do not fit
INSERT INTO orders VALUES ('Ghent', 'tea', 0, 0, 3, 1250);
INSERT INTO orders VALUES ('Malmö', 'rye; flour', 29, 23, 1, -75), ('O''Neil -- Sons', 'tea', 7, 6, 12, 9900),
  ('Ghent', 'salt', 13, 5, 0, 0);
insert into gauges values(9,1439,9223372036854775807),(0,0,-9223372036854775808),(3,60,-0);
INSERT INTO gauges VALUES (4, 61, 9223372036854775807), (4, 59, 9223372036854775807), (4, 0060, 1);
INSERT INTO tallies VALUES (1), (2), (-4);
SELECT SUM(level), AVG(level), MIN(level), MAX(level) FROM gauges;
SELECT station, SUM(level), AVG(level) FROM gauges GROUP BY station;
SELECT SUM(n), AVG(n), MIN(n), MAX(n), COUNT(*) FROM tallies;
INSERT INTO orders VALUES ('Paris', 'tea', 30, 0, 1, 1);
INSERT INTO orders VALUES ('Paris', 'tea', -1, 'noon', 1, 1);
INSERT INTO orders VALUES ('Paris', 'tea', 3, 'noon', 1, 1);
INSERT INTO orders VALUES ('Paris', 'tea', 3, 12, 1, '1');
INSERT INTO orders VALUES (5, 'tea', 3, 12, 1, 1);
INSERT INTO orders VALUES ('Ghent', 'tea', 3, 12, 1, 1), ('Rome', 'tea', 3, 12, 1), ('Rome', 'tea', 99, 12, 1, 1);
INSERT INTO orders VALUES ('Ghent', 'tea', 3, 12, 1, 1), ('Rome', 'tea', 99, 12, 1, 1), ('Rome');
INSERT INTO orders VALUES ('LONG_TEXT', 'tea', 3, 12, 1, 1);
INSERT INTO tallies VALUES (1, 2);
INSERT INTO tallies VALUES (9223372036854775807), (-9223372036854775808), ('9');

-- ---- files
LOAD orders FROM 'orders.csv' REJECT 3;
LOAD gauges FROM 'minutes.csv' REJECT 2;
LOAD gauges FROM 'minutes.csv' REJECT 1;
LOAD gauges FROM 'odd.csv' REJECT 99;
LOAD gauges FROM 'rejected.csv' REJECT 119;
LOAD gauges FROM 'rejected.csv' REJECT 120;
LOAD tallies FROM 'empty.csv' REJECT 0;
LOAD tallies FROM 'minutes.csv' REJECT 1;
LOAD orders FROM 'absent.csv' REJECT 9223372036854775807;
LOAD order_s FROM 'absent.csv' REJECT 0;
SELECT COUNT(*), SUM(level), MAX(level) FROM gauges WHERE minute = 1439;
SELECT station, COUNT(*), SUM(level), MIN(level), MAX(level) FROM gauges WHERE minute BETWEEN 1 AND 1438 GROUP BY station;
"""

QUERIES = """\
-- ---- what a query may ask
SELECT shop, product, SUM(units), AVG(cents) FROM orders GROUP BY shop, product;
SELECT product, shop, COUNT(*) FROM orders WHERE day BETWEEN 7 AND 20 GROUP BY shop, product ORDER BY product DESC, COUNT(*);
SELECT COUNT(*), SUM(units) FROM orders GROUP BY shop; -- groups that no item names
SELECT day, day, COUNT(*), COUNT(*) FROM orders WHERE hour IN (0, 23, 5, 5, -1, 99) GROUP BY day, day ORDER BY COUNT(*) DESC, day LIMIT 4;
SELECT shop, AVG(cents), SUM(cents) FROM orders GROUP BY shop ORDER BY AVG(cents) DESC;
SELECT shop, MIN(cents), MAX(cents) FROM orders WHERE product = 'tea' AND shop IN ('Ghent', 'Malmö', 'Atlantis') GROUP BY shop;
SELECT COUNT(*) FROM orders WHERE shop = 'Atlantis';
SELECT COUNT(*) FROM orders WHERE shop = 'Ghent' AND shop = 'Malmö';
SELECT COUNT(*) FROM orders WHERE day = 30;
SELECT COUNT(*) FROM orders WHERE day BETWEEN 20 AND 10;
SELECT COUNT(*) FROM orders WHERE day BETWEEN -9223372036854775808 AND 9223372036854775807;
SELECT shop, SUM(units), COUNT(*) FROM orders GROUP BY shop HAVING COUNT(*) IN (1, 2, 3) AND SUM(units) BETWEEN 0 AND 100;
SELECT shop, SUM(units) FROM orders GROUP BY shop HAVING SUM(units) = 3;
SELECT COUNT(*) FROM orders HAVING COUNT(*) = -1;
SELECT hour, COUNT(*) FROM orders WHERE hour BETWEEN 6 AND 11 GROUP BY hour ORDER BY COUNT(*) DESC LIMIT 3;
SELECT hour FROM orders GROUP BY hour LIMIT 9223372036854775807;
SELECT station, MAX(level) FROM gauges GROUP BY station ORDER BY MAX(level) DESC, station DESC LIMIT 5;
SELECT minute,SUM(level)FROM gauges WHERE minute BETWEEN 1AND 3 GROUP BY minute ORDER BY SUM(level)ASC;
SELECT SUM(n) FROM tallies ORDER BY SUM(n) LIMIT 1;

-- ---- what a query may not ask
SELECT SUM(units) FROM Orders;
SELECT town, SUM(shop) FROM orders GROUP BY shop;
SELECT SUM(shop), units FROM orders WHERE town = 1;
SELECT shop, COUNT(*) FROM orders GROUP BY shop HAVING SUM(shops) = 1 ORDER BY MIN(cent);
SELECT units, COUNT(*) FROM orders GROUP BY shop;
SELECT COUNT(*), AVG(day) FROM orders;
SELECT COUNT(*) FROM orders WHERE cents = 1;
SELECT COUNT(*) FROM orders WHERE day = 1 AND hour IN (1, 2, 'noon');
SELECT COUNT(*) FROM orders WHERE shop IN ('Ghent', 1);
SELECT COUNT(*) FROM orders WHERE product BETWEEN 'salt' AND 'tea';
SELECT COUNT(*) FROM orders GROUP BY cents;
SELECT COUNT(*) FROM orders ORDER BY cents;
SELECT shop, day, hour FROM orders GROUP BY shop, hour;
SELECT day, COUNT(*) FROM orders GROUP BY shop ORDER BY MIN(units);
SELECT shop, COUNT(*) FROM orders GROUP BY shop ORDER BY shop, day DESC;
SELECT shop, AVG(units) FROM orders GROUP BY shop HAVING AVG(units) = 1 ORDER BY SUM(cents);
SELECT shop, AVG(units) FROM orders GROUP BY shop HAVING AVG(units) = 1 ORDER BY AVG(units);
SELECT SUM(n), COUNT(*) FROM tallies WHERE n = 1;
"""

DELETIONS = """\
-- ---- deletions, and what would cut a brick
DELETE FROM orders WHERE day = 3 AND hour = 2;
DELETE FROM orders WHERE hour = 2 AND day = 3;
DELETE FROM orders WHERE hour = 3 AND day = 99;
DELETE FROM orders WHERE day IN (0, 1, 2, 3, 4, 5, 6, 14);
DELETE FROM orders WHERE day BETWEEN 27 AND 29;
DELETE FROM orders WHERE product = 'tea';
DELETE FROM orders WHERE product IN ('tea', 'salt', 'rye; flour') AND shop = 'Ghent';
DELETE FROM orders WHERE shop = 'Ghent' AND day = 1;
DELETE FROM orders WHERE town = 'Ghent' AND units = 1;
DELETE FROM orders WHERE units = 1 AND day = 3;
DELETE FROM orders WHERE day = 'three';
DELETE FROM order_s;
SELECT day, COUNT(*) FROM orders GROUP BY day;
DELETE FROM orders WHERE day BETWEEN 28 AND 100;
SELECT COUNT(*), SUM(units) FROM orders;
SELECT COUNT(*) FROM orders WHERE day BETWEEN 28 AND 29;
DELETE FROM orders WHERE day IN (13, 99, 7, 8, 9, 10, 11, 12, 12, -4) AND hour BETWEEN 0 AND 5;
DELETE FROM orders WHERE day = 3 AND day = 4;
DELETE FROM orders WHERE day BETWEEN 9 AND 2;
DELETE FROM orders WHERE day BETWEEN -5 AND 10 AND day BETWEEN 0 AND 6 AND hour IN (18, 19, 20, 21, 22, 23) AND shop IN ('Ghent', 'Malmö');
SELECT day, hour, COUNT(*) FROM orders WHERE day BETWEEN 0 AND 13 GROUP BY day, hour;
DELETE FROM gauges WHERE station = 9;
DELETE FROM gauges WHERE station = 8;
DELETE FROM gauges WHERE minute BETWEEN 60 AND 119 AND station IN (2, 1, 0);
SELECT station, COUNT(*), SUM(level) FROM gauges GROUP BY station;
DELETE FROM tallies;
SELECT SUM(n), COUNT(*) FROM tallies;
INSERT INTO tallies VALUES (-1), (0);
SELECT SUM(n), AVG(n), COUNT(*) FROM tallies;
"""

TRANSACTIONS = """\
-- ---- transactions
COMMIT; ROLLBACK;
BEGIN;
INSERT INTO tallies VALUES (100);
SELECT SUM(n) FROM tallies;
DELETE FROM tallies;
INSERT INTO tallies VALUES (7), (8);
SELECT SUM(n), COUNT(*) FROM tallies;
SHOW EPOCHS;
FLUSH; -- the round goes up to where the transaction began
FLUSH;
PURGE;
SHOW EPOCHS;
BEGIN;
CREATE CUBE tallies (METRIC m);
SELECT SUM(m) FROM tallies;
INSERT INTO tallies VALUES ('x');
DELETE FROM gauges WHERE minute = 0;
LOAD tallies FROM 'absent.csv' REJECT 0;
COMIT;
COMMIT;
SELECT SUM(n), COUNT(*) FROM tallies;
BEGIN; DELETE FROM tallies; INSERT INTO gauges VALUES (9, 0, 5); SELECT COUNT(*) FROM tallies; ROLLBACK;
SELECT SUM(n), COUNT(*) FROM tallies;
SELECT COUNT(*) FROM gauges WHERE station = 9;
BEGIN;
INSERT INTO tallies VALUES (1000);
LOAD tallies FROM 'minutes.csv' REJECT 0; -- which ends the transaction
SELECT SUM(n) FROM no_cube;
SELECT SUM(n FROM tallies;
INSERT INTO tallies VALUES (1); LOAD tallies FROM 'empty.csv' REJECT 0; DELETE FROM tallies;
BEGIN; COMMIT; CREATE CUBE tallies (METRIC m);
FLUSH; PURGE; SHOW EPOCHS;
ROLLBACK;
ROLLBACK;
SELECT SUM(n), COUNT(*) FROM tallies;
BEGIN; LOAD gauges FROM 'odd.csv' REJECT 14; SELECT COUNT(*), SUM(level) FROM gauges; ROLLBACK;
SELECT COUNT(*), SUM(level) FROM gauges;
BEGIN; COMMIT;
BEGIN; ROLLBACK;
SHOW EPOCHS; FLUSH; FLUSH; PURGE; SHOW EPOCHS;

-- ---- dictionaries
LOAD orders FROM 'products.csv' REJECT 0; -- refused, and the names of its rows stay
SELECT COUNT(*) FROM orders WHERE product IN ('ink', 'oil', 'wax');
INSERT INTO orders VALUES ('Ghent', 'ink', 20, 1, 1, 1);
INSERT INTO orders VALUES ('Oslo', 'jam''s', 20, 1, 1, 1);
LOAD orders FROM 'products.csv' REJECT 9;
SELECT product, SUM(units) FROM orders WHERE day = 20 AND hour = 1 GROUP BY product;
BEGIN;
INSERT INTO orders VALUES ('Ghent', 'tea', 21, 2, 1, 1), ('Quito', 'tea', 21, 2, 1, 1);
INSERT INTO orders VALUES ('Ghent', 'tea', 21, 2, 1, 1), ('Nîmes', 'tea', 21, 2, 1, 1);
COMMIT;
SELECT shop, COUNT(*) FROM orders GROUP BY shop;
CREATE CUBE names (DIM a TEXT 2 1, METRIC n);
DELETE FROM names WHERE a = 'LONG_TEXT';
DELETE FROM names WHERE a IN ('one', 'two') AND a = 'three'; -- deletions give numbers too
INSERT INTO names VALUES ('two', 2), ('one', 1), ('three', 3);
INSERT INTO names VALUES ('two', 2), ('one', 1);
DELETE FROM names WHERE a IN ('two', 'three');
SELECT a, SUM(n) FROM names GROUP BY a;
"""

MADE = """\
-- ---- cubes of the script
CREATE CUBE made (METRIC m, DIM b TEXT 2 1, METRIC k, DIM a INT 4 2);
INSERT INTO made VALUES ('x', 3, 10, 20), ('', 0, -1, -2);
SELECT b, a, SUM(m), SUM(k) FROM made GROUP BY b, a;
BEGIN; INSERT INTO made VALUES ('y', 1, 1, 1); ROLLBACK;
INSERT INTO made VALUES ('y', 1, 1, 1);
CREATE CUBE made (METRIC m);
CREATE CUBE made (DIM a INT 2 1, DIM b INT 0 1, DIM a TEXT 1 1);
CREATE CUBE more (METRIC x, METRIC y, DIM x INT 1 1);
CREATE CUBE more (DIM a INT 5 6, DIM b INT 0 0, METRIC m);
CREATE CUBE more (DIM a INT 5 5, DIM b INT 5 6);
CREATE CUBE more (DIM a INT 4294967295 1, DIM b INT 4294967295 1);
CREATE CUBE more (METRIC a, METRIC b, METRIC c, METRIC d, METRIC e, METRIC f, METRIC g, METRIC h, METRIC i, METRIC j,
  METRIC k, METRIC l, METRIC m, METRIC n, METRIC o, METRIC p, METRIC q);
CREATE CUBE more (DIM a INT 5 -0);
CREATE CUBE more (DIM a INT 5 5);
CREATE CUBE more (DIM a INT 4294967296 1, METRIC m);
CREATE CUBE far (DIM at INT 4294967295 4294967295, METRIC m);
INSERT INTO far VALUES (4294967294, 1), (0, 2);
INSERT INTO far VALUES (4294967295, 1);
SELECT at, SUM(m) FROM far WHERE at BETWEEN 1 AND 4294967296 GROUP BY at;
DELETE FROM far; SELECT COUNT(*) FROM far;
create cube Tallies (metric n); CREATE CUBE _ (METRIC n); CREATE CUBE NAME_OF_64 (METRIC n);
CREATE CUBE NAME_OF_64x (METRIC n);
CREATE CUBE c1 (METRIC n); CREATE CUBE c2 (METRIC n); CREATE CUBE c3 (METRIC n); CREATE CUBE c4 (METRIC n);
CREATE CUBE c5 (METRIC n); CREATE CUBE c6 (METRIC n); CREATE CUBE c7 (METRIC n); CREATE CUBE c8 (METRIC n);
CREATE CUBE c7 (METRIC n);
CREATE CUBE c8 (DIM n INT 1 1);
INSERT INTO c7 VALUES (8); SELECT SUM(n) FROM c7; SELECT SUM(n) FROM c8; SELECT SUM(n) FROM Tallies;

-- ---- texts that are no statements
SELECT FROM orders;
SELECT SUM(units) FROM orders WHERE /* no */ day = 1;
SELECT größe FROM orders;
SELECT shop FROM orders GROUP shop;
SELECT SUM(n) FROM -- of which
  -- cube
  ;
SELECT COUNT(shop) FROM orders;
SELECT SUM(*) FROM orders;
SELECT COUNT(*) FROM orders HAVING shop = 1;
SELECT COUNT(*) FROM orders HAVING COUNT(*) = 'one';
SELECT COUNT(*) FROM orders LIMIT -1;
SELECT COUNT(*) FROM orders ORDER BY COUNT(*) LIMIT 1, 2;
SELECT COUNT(*) FROM orders LIMIT 9223372036854775808;
SELECT COUNT(*) FROM orders WHERE day = - 1;
SELECT COUNT(*) FROM orders WHERE day = 5--3
  AND hour = 2 #;
SELECT limit FROM orders;
INSERT INTO tallies VALUES ();
INSERT INTO tallies VALUES (1),;
LOAD tallies FROM empty REJECT 0;
LOAD tallies FROM 'empty.csv' REJECT -1;
BEGIN TRANSACTION; BEGINN; DELETE tallies; SHOW; CREATE CUBE c10 ();
WATCH SELECT SUM(n) FROM tallies LIMIT 1;
"""

ENDING = """\
-- ---- the end, inside a transaction and a text
BEGIN;
DELETE FROM orders;
INSERT INTO tallies VALUES (123);
SELECT COUNT(*) FROM orders;
SELECT SUM(n) FROM tallies WHERE 'a text; that never ends -- is one statement
"""
