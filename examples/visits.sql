-- Two days of visits are loaded and looked at, and the first of them is deleted.
LOAD visits FROM 'monday.csv' REJECT 0;
LOAD visits FROM 'tuesday.csv' REJECT 5;
SELECT day, COUNT(*), SUM(likes) FROM visits GROUP BY day ORDER BY day;
SELECT region, SUM(likes), AVG(comments) FROM visits GROUP BY region ORDER BY SUM(likes) DESC, region LIMIT 3;
SELECT region, gender, MIN(likes), MAX(likes), COUNT(*) FROM visits
  WHERE day = 33 AND hour BETWEEN 6 AND 17 GROUP BY region, gender
  HAVING COUNT(*) BETWEEN 8 AND 1000 ORDER BY COUNT(*) DESC, region, gender;
DELETE FROM visits WHERE day = 32;
SELECT day, COUNT(*), SUM(likes) FROM visits GROUP BY day ORDER BY day;
BEGIN;
INSERT INTO visits VALUES ('Oslo', 'F', 34, 9, 12, 3), ('Quito', 'X', 34, 23, 41, 0);
DELETE FROM visits WHERE day = 33 AND hour IN (0, 1, 2, 3, 4, 5);
SELECT day, COUNT(*), SUM(likes) FROM visits GROUP BY day ORDER BY day;
COMMIT;
SELECT COUNT(*), SUM(likes), SUM(comments) FROM visits;
FLUSH;
SHOW EPOCHS;
