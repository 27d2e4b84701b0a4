-- Prints, for each table of the databases, a SELECT that prints its `row` lines as the entries of its binary log have them:
--   (echo "SET @dbs='shop,bank';"; cat rows.sql) | mysql -N -r | mysql -N -r
-- @dbs, @db and @excluded are those of tables.sql.
-- FLOAT, DOUBLE, GEOMETRY, VECTOR and JSON have the bytes that the entries of binary log files have (their text has none of them whole). A column of a
-- type that is none of these gives a line that no bundle takes.
SET SESSION group_concat_max_len = 1000000;
-- the names of databases and tables as words of a bundle, as in tables.sql
SET @words = (WITH RECURSIVE names AS (
    SELECT TABLE_SCHEMA COLLATE utf8mb3_bin AS name FROM information_schema.TABLES UNION SELECT TABLE_NAME COLLATE utf8mb3_bin FROM information_schema.TABLES),
  spelled (name, done, word) AS (
    SELECT name, 0, CAST('' AS CHAR(600)) FROM names WHERE name NOT REGEXP '^[A-Za-z0-9_$-]*$'
    UNION ALL
    SELECT name, done + 1, CONCAT(word, IF(SUBSTR(name, done + 1, 1) REGEXP '[A-Za-z0-9_$-]', SUBSTR(name, done + 1, 1),
      LOWER(REGEXP_REPLACE(HEX(SUBSTR(name, done + 1, 1)), '..', '%$0')))) FROM spelled WHERE done < CHAR_LENGTH(name))
  SELECT JSON_ARRAYAGG(JSON_ARRAY(name, word)) FROM spelled WHERE done = CHAR_LENGTH(name));
WITH words AS (SELECT CAST(name AS BINARY) AS name, word FROM JSON_TABLE(@words, '$[*]' COLUMNS (name VARCHAR(64) PATH '$[0]', word VARCHAR(600) PATH '$[1]')) AS pairs),
tables_here AS (
  SELECT TABLE_SCHEMA, TABLE_NAME,
    CONVERT(CONCAT_WS('.', COALESCE(d.word, TABLE_SCHEMA), COALESCE(t.word, TABLE_NAME)) USING utf8mb4) COLLATE utf8mb4_bin AS of_table
  FROM information_schema.TABLES LEFT JOIN words d ON d.name = TABLE_SCHEMA LEFT JOIN words t ON t.name = TABLE_NAME
  WHERE TABLE_TYPE = 'BASE TABLE' AND NOT FIND_IN_SET(CAST(CONCAT_WS('.', TABLE_SCHEMA, TABLE_NAME) AS BINARY), COALESCE(@excluded, ''))
    AND IF(COALESCE(@dbs, @db) IS NULL, TABLE_SCHEMA NOT IN ('mysql', 'sys', 'information_schema', 'performance_schema'),
      FIND_IN_SET(CAST(TABLE_SCHEMA AS BINARY), COALESCE(@dbs, @db)))),
-- each column with its name as an identifier
columns_here AS (
  SELECT c.*, of_table, CONVERT(CONCAT('`', REPLACE(COLUMN_NAME, '`', '``'), '`') USING utf8mb4) AS it FROM information_schema.COLUMNS c JOIN tables_here USING (TABLE_SCHEMA, TABLE_NAME)),
-- and the expression of its word
column_words AS (
  SELECT TABLE_SCHEMA, TABLE_NAME, of_table, ORDINAL_POSITION, CASE
    -- (+ 0: what is ZEROFILL has no zeros in front. From 2^63 on a number stands as the bytes of its digits)
    WHEN DATA_TYPE = 'bigint' AND COLUMN_TYPE LIKE '%unsigned%' THEN CONCAT('IF(', it, '<=9223372036854775807,', it, '+0,CONCAT(''x'',LOWER(HEX(CAST(', it, '+0 AS CHAR)))))')
    WHEN DATA_TYPE IN ('tinyint', 'smallint', 'mediumint', 'int', 'bigint') THEN CONCAT(it, '+0')
    -- YEAR 0000 stands as 1900 in the log's text
    WHEN DATA_TYPE = 'year' THEN CONCAT('IF(', it, '=0,1900,', it, '+0)')
    WHEN DATA_TYPE = 'enum' THEN CONCAT(it, '+0')
    WHEN DATA_TYPE = 'timestamp' AND DATETIME_PRECISION = 0 THEN CONCAT('UNIX_TIMESTAMP(', it, ')')
    ELSE CONCAT('CONCAT(''x'',LOWER(HEX(',
      CASE
        WHEN DATA_TYPE IN ('char', 'varchar', 'tinytext', 'text', 'mediumtext', 'longtext', 'varbinary', 'tinyblob', 'blob', 'mediumblob', 'longblob')
          THEN it
        -- BINARY stands there without the zeros at its end
        WHEN DATA_TYPE = 'binary' THEN CONCAT('TRIM(TRAILING ''\\0'' FROM ', it, ')')
        WHEN DATA_TYPE = 'json' THEN CONCAT('CAST(', it, ' AS CHAR CHARACTER SET utf8mb4)')
        WHEN DATA_TYPE = 'date' THEN CONCAT('DATE_FORMAT(', it, ',''%Y:%m:%d'')')
        WHEN DATA_TYPE = 'timestamp' THEN CONCAT('CAST(UNIX_TIMESTAMP(', it, ') AS CHAR)')
        WHEN DATA_TYPE IN ('decimal', 'time', 'datetime') THEN CONCAT('CAST(', it, IF(COLUMN_TYPE LIKE '%zerofill%', '+0', ''), ' AS CHAR)')
        WHEN DATA_TYPE = 'bit' THEN CONCAT('LPAD(BIN(', it, '+0),', NUMERIC_PRECISION, ',''0'')')
        WHEN DATA_TYPE = 'double' THEN CONCAT('REVERSE(SUBSTR(ST_AsBinary(POINT(', it, ',0)),6,8))')
        -- the four bytes of a FLOAT out of the eight of the DOUBLE that it is (@): below 2^-126 there is no first 1 that isn't written
        WHEN DATA_TYPE = 'float' THEN REPLACE(CONCAT('UNHEX(LPAD(HEX(((@>>32)&0x80000000)|IF(((@>>52)&2047)=0,0,IF(((@>>52)&2047)>=897,',
          '((((@>>52)&2047)-896)<<23)|((@&0xfffffffffffff)>>29),((@&0xfffffffffffff)|0x10000000000000)>>(926-((@>>52)&2047))))),8,''0''))'),
          '@', CONCAT('CAST(CONV(HEX(REVERSE(SUBSTR(ST_AsBinary(POINT(', it, ',0)),6,8))),16,10) AS UNSIGNED)'))
        WHEN DATA_TYPE IN ('vector', 'geometry', 'point', 'linestring', 'polygon', 'multipoint', 'multilinestring', 'multipolygon', 'geomcollection',
          'geometrycollection') THEN it
        -- a SET of up to 8, 16, 24, 32 or 64 names has as many bits there, the lowest byte first
        WHEN DATA_TYPE = 'set' THEN CONCAT('LEFT(CONCAT(LPAD(BIN(', it, '&255),8,''0'')',
          (SELECT GROUP_CONCAT(CONCAT(',LPAD(BIN((', it, '>>', bits, ')&255),8,''0'')') ORDER BY bits SEPARATOR '')
            FROM (SELECT 8 AS bits UNION SELECT 16 UNION SELECT 24 UNION SELECT 32 UNION SELECT 40 UNION SELECT 48 UNION SELECT 56) AS behind),
          '),', ELT(LEAST(CEIL((1 + LENGTH(COLUMN_TYPE) - LENGTH(REPLACE(COLUMN_TYPE, ',', ''))) / 8), 5), 8, 16, 24, 32, 64), ')')
        ELSE '''?'''
      END, ')))')
    END AS word
  FROM columns_here)
SELECT CONCAT('SELECT CONCAT_WS('' '',''row ', of_table, ''',', GROUP_CONCAT('IFNULL(', word, ',''null'')' ORDER BY ORDINAL_POSITION),
  ') FROM ', CONVERT(CONCAT('`', REPLACE(TABLE_SCHEMA, '`', '``'), '`.`', REPLACE(TABLE_NAME, '`', '``'), '`;') USING utf8mb4))
FROM column_words GROUP BY TABLE_SCHEMA, TABLE_NAME, of_table ORDER BY CAST(of_table AS BINARY);
