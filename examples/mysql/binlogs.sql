-- Statements of kinds that a log has beside plain rows, over the tables of binlogs: `tables` makes them, and here transactions change them.
USE v;
-- several tables and several events in a statement, partitions, a trigger, cascades
INSERT INTO parts (id, w) VALUES (1, 1), (2, 2), (3, 3), (4, 4);
UPDATE parts SET id = id + 10;
UPDATE plain, parts SET plain.w = 0, parts.w = 5 WHERE plain.id = parts.id - 10;
INSERT INTO plain VALUES (30, 3), (31, 3);
UPDATE plain SET w = w + 1;
INSERT INTO parent VALUES (3, 'c'), (4, 'd');
INSERT INTO child VALUES (30, 3), (31, 3), (40, 4);
DELETE FROM parent WHERE id = 3;
UPDATE parent SET id = 5 WHERE id = 4;
INSERT INTO long_rows VALUES (1, REPEAT('a', 3000), 'x'), (2, REPEAT('b', 200), NULL), (3, '', REPEAT('y', 70000));
DELETE FROM long_rows WHERE id = 2;
-- savepoints, what is rolled back, and what changes nothing
START TRANSACTION;
SAVEPOINT one;
INSERT INTO plain VALUES (50, 1);
ROLLBACK TO one;
INSERT INTO plain VALUES (51, 1);
SAVEPOINT two;
INSERT INTO parts (id, w) VALUES (51, 1);
COMMIT;
START TRANSACTION;
INSERT INTO plain VALUES (52, 1);
ROLLBACK;
START TRANSACTION;
INSERT INTO plain VALUES (53, 1);
UPDATE plain SET id = 54 WHERE id = 53;
DELETE FROM plain WHERE id = 54;
COMMIT;
UPDATE plain SET w = w WHERE id = 51;
FLUSH RELAY LOGS;
FLUSH NO_WRITE_TO_BINLOG RELAY LOGS;
REPLACE INTO plain VALUES (51, 9), (60, 9);
INSERT INTO plain VALUES (60, 1) ON DUPLICATE KEY UPDATE w = 100;
-- columns that are hidden, other character sets, many columns
INSERT INTO unseen (id, a, b) VALUES (1, 2, 3), (2, NULL, 4);
UPDATE unseen SET a = 5;
INSERT INTO keyless VALUES (1), (1), (NULL);
DELETE FROM keyless LIMIT 1;
INSERT INTO letters VALUES (1, 'é ', 'é€', '中', REPEAT('😀', 255), 'é', x'00ff', 'ab '), (2, NULL, '', '', '', NULL, x'', '😀');
UPDATE letters SET a = 'ÿ', b = '😀' WHERE id = 1;
INSERT INTO wide (id, c298, c299) VALUES (1, 255, NULL), (2, 0, 1);
UPDATE wide SET c1 = 200, c150 = NULL WHERE id = 2;
