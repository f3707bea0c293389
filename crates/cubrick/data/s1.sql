INSERT INTO visits VALUES ('CA','M',3,1);
INSERT INTO visits VALUES ('NY','F',5,0);
INSERT INTO visits VALUES ('CA','F',2,4);
INSERT INTO visits VALUES ('TX','M',7,2);
SELECT region, SUM(likes), COUNT(*) FROM visits GROUP BY region;
