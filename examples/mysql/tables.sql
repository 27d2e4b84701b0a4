-- Prints the head lines of the tables of a server: a `table` line for each table, with a line `collate <table> <column> <how>` behind it for each column
-- that a key compares otherwise than by its bytes. Each of these has a hidden column behind the others, in their order, which the keys name in its place.
-- Then an `fk` line for each foreign key that refers to a whole primary or unique key, in that key's order; and a line `unsupported <what> <where>` for each
-- other foreign key, for each key or table that a bundle can't hold, and for each generated column or check that a replica may compute otherwise: `import`
-- refuses a head that has one of these.
--   (echo "SET @dbs='shop,bank';"; cat tables.sql) | mysql -N -r
-- @dbs is the databases, with commas between them (@db, if it is one); all but the server's own where it is null.
-- @excluded is the tables that are left out, as `shop.carts,shop.visits`; none where it is null.
-- @no_rows is 1 where `import --no-rows` is called: then a table without a key has its whole row as key.
-- The collations whose weights are known (preflight.sql has them too). utf8mb4_0900_bin isn't one: it compares bytes, and so does each `_bin` of a CHAR.
SET @collations = CONCAT_WS(',', 'utf8mb4_0900_ai_ci', 'utf8mb4_0900_as_cs', 'utf8mb4_general_ci', 'utf8mb4_unicode_ci', 'utf8mb4_unicode_520_ci', 'utf8mb4_bin',
  'utf8mb3_general_ci', 'utf8mb3_unicode_ci', 'utf8mb3_bin', 'latin1_swedish_ci', 'latin1_general_ci', 'latin1_general_cs', 'latin1_bin', 'ascii_general_ci', 'ascii_bin');
SET SESSION group_concat_max_len = 1000000;

-- ---- the names of databases, tables and keys as words of a bundle: [name, word] of each that isn't plain

-- character by character: each byte that isn't plain becomes `%` and its two hexadecimal digits
SET @words = (WITH RECURSIVE names AS (
    SELECT TABLE_SCHEMA COLLATE utf8mb3_bin AS name FROM information_schema.TABLES UNION SELECT TABLE_NAME COLLATE utf8mb3_bin FROM information_schema.TABLES
    UNION SELECT INDEX_NAME COLLATE utf8mb3_bin FROM information_schema.STATISTICS
    UNION SELECT CONSTRAINT_NAME COLLATE utf8mb3_bin FROM information_schema.REFERENTIAL_CONSTRAINTS
    UNION SELECT CONSTRAINT_NAME COLLATE utf8mb3_bin FROM information_schema.CHECK_CONSTRAINTS
    UNION SELECT COLUMN_NAME COLLATE utf8mb3_bin FROM information_schema.COLUMNS WHERE GENERATION_EXPRESSION <> ''),
  spelled (name, done, word) AS (
    SELECT name, 0, CAST('' AS CHAR(600)) FROM names WHERE name NOT REGEXP '^[A-Za-z0-9_$-]*$'
    UNION ALL
    SELECT name, done + 1, CONCAT(word, IF(SUBSTR(name, done + 1, 1) REGEXP '[A-Za-z0-9_$-]', SUBSTR(name, done + 1, 1),
      LOWER(REGEXP_REPLACE(HEX(SUBSTR(name, done + 1, 1)), '..', '%$0')))) FROM spelled WHERE done < CHAR_LENGTH(name))
  SELECT JSON_ARRAYAGG(JSON_ARRAY(name, word)) FROM spelled WHERE done = CHAR_LENGTH(name));

WITH words AS (SELECT CAST(name AS BINARY) AS name, word FROM JSON_TABLE(@words, '$[*]' COLUMNS (name VARCHAR(64) PATH '$[0]', word VARCHAR(600) PATH '$[1]')) AS pairs),

-- ---- the tables

tables_here AS (
  SELECT TABLE_SCHEMA, TABLE_NAME,
    CONVERT(CONCAT_WS('.', COALESCE(d.word, TABLE_SCHEMA), COALESCE(t.word, TABLE_NAME)) USING utf8mb4) COLLATE utf8mb4_bin AS of_table
  FROM information_schema.TABLES LEFT JOIN words d ON d.name = TABLE_SCHEMA LEFT JOIN words t ON t.name = TABLE_NAME
  WHERE TABLE_TYPE = 'BASE TABLE' AND NOT FIND_IN_SET(CAST(CONCAT_WS('.', TABLE_SCHEMA, TABLE_NAME) AS BINARY), COALESCE(@excluded, ''))
    AND IF(COALESCE(@dbs, @db) IS NULL, TABLE_SCHEMA NOT IN ('mysql', 'sys', 'information_schema', 'performance_schema'),
      FIND_IN_SET(CAST(TABLE_SCHEMA AS BINARY), COALESCE(@dbs, @db)))),

-- ---- keys

-- the parts of each unique key: where the column stands, and how the key compares it, if not by its bytes (before 8.0.30 utf8mb3 is called utf8)
parts AS (
  SELECT t.of_table, CONVERT(s.INDEX_NAME USING utf8mb4) AS of_key, s.SEQ_IN_INDEX AS seq, c.ORDINAL_POSITION - 1 AS place, s.EXPRESSION, s.SUB_PART, s.NULLABLE, c.COLUMN_KEY,
    c.DATA_TYPE, REGEXP_REPLACE(c.COLLATION_NAME, '^utf8_', 'utf8mb3_') AS of_collation
  FROM information_schema.STATISTICS s JOIN tables_here t USING (TABLE_SCHEMA, TABLE_NAME)
  LEFT JOIN information_schema.COLUMNS c USING (TABLE_SCHEMA, TABLE_NAME, COLUMN_NAME) WHERE s.NON_UNIQUE = 0),
compared_parts AS (
  SELECT parts.*, CASE
    WHEN DATA_TYPE IN ('float', 'double') THEN 'float'
    WHEN DATA_TYPE IN ('binary', 'varbinary', 'tinyblob', 'blob', 'mediumblob', 'longblob') AND SUB_PART IS NOT NULL
      THEN CONCAT(IF(DATA_TYPE = 'binary', 'fixed ', ''), 'binary(', SUB_PART, ')')
    WHEN DATA_TYPE NOT IN ('char', 'varchar', 'tinytext', 'text', 'mediumtext', 'longtext') THEN NULL
    WHEN SUB_PART IS NULL THEN IF(FIND_IN_SET(of_collation, @collations) AND NOT (DATA_TYPE = 'char' AND of_collation LIKE '%\_bin'), of_collation, NULL)
    -- (`fixed`: the log has no blanks at the end of a CHAR, nor zeros at the end of a BINARY, and a prefix compares them)
    WHEN FIND_IN_SET(of_collation, @collations) OR of_collation = 'utf8mb4_0900_bin'
      THEN CONCAT(IF(DATA_TYPE = 'char', 'fixed ', ''), of_collation, '(', SUB_PART, ')') END AS compared
  FROM parts),
all_keys AS (
  SELECT of_table, of_key, MAX(NULLABLE = 'YES') AS may_be_null, MIN(COLUMN_KEY = 'PRI') AS is_first, GROUP_CONCAT(place ORDER BY seq) AS places,
    CASE WHEN MAX(EXPRESSION IS NOT NULL) THEN 'expression-key' WHEN MAX(SUB_PART IS NOT NULL AND compared IS NULL) THEN 'prefix-key' END AS unsupported,
    MAX(SUB_PART IS NOT NULL) AS has_prefix
  FROM compared_parts GROUP BY of_table, of_key),
-- The primary key, or else the unique key that the server takes in its place: the first one without NULLs (COLUMN_KEY is PRI for its columns).
primary_keys AS (
  SELECT of_table, of_key FROM (
    SELECT of_table, of_key, ROW_NUMBER() OVER (PARTITION BY of_table ORDER BY of_key <> 'PRIMARY', has_prefix, is_first = 0, of_key) AS place
    FROM all_keys WHERE unsupported IS NULL AND may_be_null = 0) AS chosen WHERE place = 1),
held_tables AS (
  SELECT t.*, p.of_key AS of_primary_key, (SELECT COUNT(*) FROM information_schema.COLUMNS c WHERE c.TABLE_SCHEMA = t.TABLE_SCHEMA AND c.TABLE_NAME = t.TABLE_NAME) AS width
  FROM tables_here t LEFT JOIN primary_keys p USING (of_table) WHERE p.of_key IS NOT NULL OR @no_rows),
-- 0 is the primary key, and the others follow in the order of their names
numbered_keys AS (
  SELECT of_table, of_key, places, has_prefix,
    IF(of_key <=> of_primary_key, 0, ROW_NUMBER() OVER (PARTITION BY of_table ORDER BY of_key <=> of_primary_key, of_key)) AS number
  FROM all_keys JOIN held_tables USING (of_table) WHERE unsupported IS NULL),

-- ---- hidden columns: one for each column and how it is compared, and one for a table that has no key

hidden_columns AS (
  SELECT found.*, ROW_NUMBER() OVER (PARTITION BY of_table ORDER BY place IS NULL, place, compared) - 1 AS number FROM (
    SELECT DISTINCT of_table, place, compared FROM compared_parts JOIN numbered_keys USING (of_table, of_key) WHERE compared IS NOT NULL
    UNION ALL
    SELECT of_table, NULL, 'row' FROM held_tables WHERE of_primary_key IS NULL) AS found),
hidden_counts AS (SELECT of_table, COUNT(compared) AS hidden FROM held_tables LEFT JOIN hidden_columns USING (of_table) GROUP BY of_table),
-- the columns of each key as the head names them
key_words AS (
  SELECT of_table, k.number, GROUP_CONCAT(COALESCE(width + h.number, p.place) ORDER BY seq) AS places
  FROM numbered_keys k JOIN held_tables USING (of_table) JOIN compared_parts p USING (of_table, of_key)
  LEFT JOIN hidden_columns h USING (of_table, place, compared) GROUP BY of_table, k.number
  UNION ALL
  SELECT of_table, 0, width + number FROM hidden_columns JOIN held_tables USING (of_table) WHERE place IS NULL),
key_lists AS (SELECT of_table, GROUP_CONCAT(IF(number = 0, ' pk ', ' uk '), places ORDER BY number SEPARATOR '') AS words FROM key_words GROUP BY of_table),

-- ---- foreign keys

-- the columns of each in its table, and those in the table that it refers to, in one order
references_here AS (
  SELECT u.TABLE_SCHEMA, u.TABLE_NAME, u.CONSTRAINT_NAME, MAX(u.REFERENCED_TABLE_SCHEMA) AS parent_schema, MAX(u.REFERENCED_TABLE_NAME) AS parent_name,
    GROUP_CONCAT(c.ORDINAL_POSITION - 1 ORDER BY u.ORDINAL_POSITION) AS places,
    GROUP_CONCAT(p.ORDINAL_POSITION - 1 ORDER BY u.ORDINAL_POSITION) AS parent_places
  FROM information_schema.KEY_COLUMN_USAGE u JOIN tables_here USING (TABLE_SCHEMA, TABLE_NAME)
  JOIN information_schema.COLUMNS c USING (TABLE_SCHEMA, TABLE_NAME, COLUMN_NAME)
  LEFT JOIN information_schema.COLUMNS p ON p.TABLE_SCHEMA = u.REFERENCED_TABLE_SCHEMA AND p.TABLE_NAME = u.REFERENCED_TABLE_NAME AND p.COLUMN_NAME = u.REFERENCED_COLUMN_NAME
  WHERE u.REFERENCED_TABLE_NAME IS NOT NULL GROUP BY u.TABLE_SCHEMA, u.TABLE_NAME, u.CONSTRAINT_NAME),
-- each with the number of the key that it refers to, if a bundle can hold both
foreign_keys AS (
  SELECT child.of_table AS child, CONVERT(COALESCE(w.word, f.CONSTRAINT_NAME) USING utf8mb4) AS of_key, f.places, parent.of_table AS parent,
    IF(r.UPDATE_RULE IN ('NO ACTION', 'RESTRICT') AND r.DELETE_RULE IN ('NO ACTION', 'RESTRICT'), '', ' cascade') AS changes,
    (SELECT MIN(k.number) FROM numbered_keys k WHERE k.of_table = parent.of_table AND k.places = f.parent_places AND NOT k.has_prefix
      AND child.of_table IN (SELECT of_table FROM held_tables)) AS number
  FROM references_here f JOIN information_schema.REFERENTIAL_CONSTRAINTS r ON r.CONSTRAINT_SCHEMA = f.TABLE_SCHEMA AND r.TABLE_NAME = f.TABLE_NAME AND r.CONSTRAINT_NAME = f.CONSTRAINT_NAME
  LEFT JOIN words w ON w.name = f.CONSTRAINT_NAME
  JOIN tables_here child ON child.TABLE_SCHEMA = f.TABLE_SCHEMA AND child.TABLE_NAME = f.TABLE_NAME
  LEFT JOIN tables_here parent ON parent.TABLE_SCHEMA = f.parent_schema AND parent.TABLE_NAME = f.parent_name)
,

-- ---- what a replica may compute otherwise

-- Generated columns and checks, which a replica computes anew, whose values go by the session: by its time zone where they read a TIMESTAMP, convert a time
-- zone or make a DATETIME (of a text with an offset), by its div_precision_increment where they divide, and by its lc_time_names where they name days or
-- months. A log doesn't always tell these.
expressions AS (
  SELECT of_table, COLUMN_NAME AS name, GENERATION_EXPRESSION AS expression, 'session-column' AS what FROM information_schema.COLUMNS JOIN tables_here USING (TABLE_SCHEMA, TABLE_NAME)
  UNION ALL
  -- (DISTINCT: without it the two are joined row by row, which takes seconds for some hundreds)
  SELECT of_table, CONSTRAINT_NAME, CHECK_CLAUSE, 'session-check' FROM (SELECT DISTINCT * FROM information_schema.CHECK_CONSTRAINTS) AS checks
  JOIN (SELECT DISTINCT * FROM information_schema.TABLE_CONSTRAINTS WHERE CONSTRAINT_TYPE = 'CHECK') AS of_tables USING (CONSTRAINT_SCHEMA, CONSTRAINT_NAME)
  JOIN tables_here USING (TABLE_SCHEMA, TABLE_NAME)),
-- each TIMESTAMP as an expression names it there: with backslashes before these and before single quotes, and what isn't ASCII as the latin1 of its bytes
timestamps AS (
  SELECT of_table, CONCAT('`', REPLACE(REPLACE(REPLACE(COLUMN_NAME, '`', '``'), '\\', '\\\\'), '\'', '\\\''), '`') AS it
  FROM information_schema.COLUMNS JOIN tables_here USING (TABLE_SCHEMA, TABLE_NAME) WHERE DATA_TYPE = 'timestamp'),
by_session AS (
  SELECT DISTINCT of_table, CONVERT(COALESCE(word, e.name) USING utf8mb4) AS name, what FROM expressions e LEFT JOIN timestamps USING (of_table) LEFT JOIN words w ON w.name = e.name
  WHERE LOCATE(it, expression) > 0 OR LOCATE(CONVERT(CAST(it AS BINARY) USING latin1), expression) > 0 OR LOCATE(' / ', expression) > 0
    OR expression REGEXP '(from_unixtime|convert_tz|dayname|monthname)[(]|(date_format|str_to_date)[(].*%[MWab]| as datetime[()]')

-- ---- the lines

SELECT line FROM (
  SELECT 1 AS part, of_table, '' AS place, CONCAT('table ', of_table, ' ', width + hidden, words, IF(hidden > 0, CONCAT(' hidden ', hidden), '')) AS line
  FROM held_tables JOIN hidden_counts USING (of_table) JOIN key_lists USING (of_table)
  UNION ALL
  SELECT 1, of_table, LPAD(number + 1, 4, '0'), CONCAT_WS(' ', 'collate', of_table, place, compared) FROM hidden_columns
  UNION ALL
  SELECT 2, child, of_key, CONCAT_WS(' ', 'fk', child, places, parent, CONCAT(number, changes)) FROM foreign_keys WHERE number IS NOT NULL
  UNION ALL
  SELECT 3, child, of_key, CONCAT('unsupported foreign-key ', child, '.', of_key) FROM foreign_keys WHERE number IS NULL
  UNION ALL
  SELECT 4, of_table, of_key, CONCAT('unsupported ', unsupported, ' ', of_table, '.', COALESCE(word, of_key)) FROM all_keys LEFT JOIN words ON name = of_key
  WHERE unsupported IS NOT NULL
  UNION ALL
  SELECT 4, of_table, name, CONCAT('unsupported ', what, ' ', of_table, '.', name) FROM by_session
  UNION ALL
  SELECT 5, of_table, '', CONCAT('unsupported no-primary-key ', of_table) FROM tables_here WHERE of_table NOT IN (SELECT of_table FROM held_tables)) AS head
ORDER BY part, CAST(of_table AS BINARY), place;
