-- Prints what of a server's tables gtidrep doesn't take: a line `<reason> TAB <database.table> TAB <what it is>` for each (bin/gtidrep-collect has
-- a sentence for each reason). What tables.sql prints as `unsupported` isn't repeated here.
--   mysql -N < preflight.sql
-- The limits of a bundle of version 3:
SET @most_columns = 4096, @most_keys = 64;
-- The collations whose weights are known, as tables.sql has them:
SET @collations = CONCAT_WS(',', 'utf8mb4_0900_ai_ci', 'utf8mb4_0900_as_cs', 'utf8mb4_general_ci', 'utf8mb4_unicode_ci', 'utf8mb4_unicode_520_ci', 'utf8mb4_bin',
  'utf8mb3_general_ci', 'utf8mb3_unicode_ci', 'utf8mb3_bin', 'latin1_swedish_ci', 'latin1_general_ci', 'latin1_general_cs', 'latin1_bin', 'ascii_general_ci', 'ascii_bin');
WITH tables_here AS (
  SELECT TABLE_SCHEMA, TABLE_NAME, ENGINE, CONCAT_WS('.', TABLE_SCHEMA, TABLE_NAME) AS of_table FROM information_schema.TABLES
  WHERE TABLE_TYPE = 'BASE TABLE' AND TABLE_SCHEMA NOT IN ('mysql', 'sys', 'information_schema', 'performance_schema')),
columns_here AS (
  SELECT c.*, of_table, CONCAT_WS('.', of_table, COLUMN_NAME) AS place FROM information_schema.COLUMNS c JOIN tables_here USING (TABLE_SCHEMA, TABLE_NAME)),
unique_columns AS (
  SELECT s.TABLE_SCHEMA, s.TABLE_NAME, s.COLUMN_NAME, s.INDEX_NAME, s.SUB_PART FROM information_schema.STATISTICS s WHERE NON_UNIQUE = 0)
SELECT 'engine' AS reason, of_table, CONCAT(of_table, ' (', ENGINE, ')') AS what FROM tables_here WHERE ENGINE <> 'InnoDB'
UNION ALL
SELECT DISTINCT 'collation', of_table, CONCAT(place, ' (', COLLATION_NAME, ')') FROM columns_here JOIN unique_columns USING (TABLE_SCHEMA, TABLE_NAME, COLUMN_NAME)
WHERE SUB_PART IS NULL AND DATA_TYPE IN ('char', 'varchar', 'tinytext', 'text', 'mediumtext', 'longtext') AND COLLATION_NAME <> 'utf8mb4_0900_bin'
  AND NOT (DATA_TYPE = 'char' AND COLLATION_NAME LIKE '%\_bin') AND NOT FIND_IN_SET(REGEXP_REPLACE(COLLATION_NAME, '^utf8_', 'utf8mb3_'), @collations)
UNION ALL
SELECT 'columns', of_table, CONCAT(of_table, ' (', COUNT(*), ')') FROM columns_here GROUP BY of_table HAVING COUNT(*) > @most_columns
UNION ALL
SELECT 'keys', of_table, CONCAT(of_table, ' (', COUNT(DISTINCT INDEX_NAME), ')') FROM tables_here JOIN unique_columns USING (TABLE_SCHEMA, TABLE_NAME)
WHERE INDEX_NAME <> 'PRIMARY' GROUP BY of_table HAVING COUNT(DISTINCT INDEX_NAME) > @most_keys
ORDER BY reason, what;
-- A server before 9.7 logs no row that a foreign key's cascade changes.
SELECT 'cascade', '-', CONCAT_WS('.', CONSTRAINT_SCHEMA, TABLE_NAME, CONSTRAINT_NAME) FROM information_schema.REFERENTIAL_CONSTRAINTS
WHERE (DELETE_RULE NOT IN ('NO ACTION', 'RESTRICT') OR UPDATE_RULE NOT IN ('NO ACTION', 'RESTRICT'))
  AND SUBSTRING_INDEX(@@version, '.', 1) * 1000 + SUBSTRING_INDEX(SUBSTRING_INDEX(@@version, '.', 2), '.', -1) < 9007
ORDER BY 3;
