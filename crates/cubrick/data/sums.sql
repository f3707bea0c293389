-- Three rows, a sum after two of them, and a sum after all.
INSERT INTO t VALUES (4, 7);
INSERT INTO t VALUES (0, -2);
SELECT SUM(m) FROM t;
SELECT FROM t; -- refused: an item is missing at place 7
INSERT INTO t VALUES (2, 100);
SELECT SUM(m) FROM t;
