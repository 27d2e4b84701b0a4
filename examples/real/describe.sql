-- Prints the columns and the unique keys of the tables of @dbs but those of @excluded, a JSON object on each line, for rows.py.
SELECT JSON_OBJECT('table', TABLE_NAME, 'column', COLUMN_NAME, 'type', DATA_TYPE, 'whole', COLUMN_TYPE, 'length', CHARACTER_MAXIMUM_LENGTH, 'precision', NUMERIC_PRECISION,
  'scale', NUMERIC_SCALE, 'digits', DATETIME_PRECISION, 'charset', REPLACE(CHARACTER_SET_NAME, 'binary', ''), 'collation', COLLATION_NAME,
  'null', CAST(IF(IS_NULLABLE = 'YES', 'true', 'false') AS JSON), 'extra', EXTRA, 'generated', CAST(IF(GENERATION_EXPRESSION <> '', 'true', 'false') AS JSON))
FROM information_schema.COLUMNS JOIN information_schema.TABLES t USING (TABLE_SCHEMA, TABLE_NAME)
WHERE TABLE_SCHEMA = @dbs AND TABLE_TYPE = 'BASE TABLE' AND NOT FIND_IN_SET(CAST(CONCAT_WS('.', TABLE_SCHEMA, TABLE_NAME) AS BINARY), @excluded)
ORDER BY TABLE_NAME, ORDINAL_POSITION;
SELECT JSON_OBJECT('table', TABLE_NAME, 'key', INDEX_NAME, 'columns', JSON_ARRAYAGG(COLUMN_NAME), 'null', CAST(IF(MAX(NULLABLE = 'YES'), 'true', 'false') AS JSON))
FROM information_schema.STATISTICS
WHERE TABLE_SCHEMA = @dbs AND NON_UNIQUE = 0 AND NOT FIND_IN_SET(CAST(CONCAT_WS('.', TABLE_SCHEMA, TABLE_NAME) AS BINARY), @excluded)
GROUP BY TABLE_NAME, INDEX_NAME;
