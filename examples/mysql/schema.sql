-- The tables of the example: all types whose values an import takes. Key columns are numbers, bytes, or text that is compared by its bytes
-- (utf8mb4_0900_bin: the older binary collations pad with blanks).
CREATE DATABASE shop CHARACTER SET utf8mb4;
CREATE TABLE shop.items (
  id BIGINT NOT NULL PRIMARY KEY,
  code VARCHAR(40) CHARACTER SET utf8mb4 COLLATE utf8mb4_0900_bin NOT NULL UNIQUE KEY,
  quantity INT UNSIGNED,
  price DECIMAL(12, 2)
);
CREATE TABLE shop.pairs (
  a INT NOT NULL,
  b VARBINARY(20) NOT NULL,
  c SMALLINT,
  d BINARY(4),
  note VARCHAR(50),
  PRIMARY KEY (b, a),
  UNIQUE KEY (c, d)
);
CREATE TABLE shop.kinds (
  id INT UNSIGNED NOT NULL PRIMARY KEY,
  tiny TINYINT, utiny TINYINT UNSIGNED, small SMALLINT, usmall SMALLINT UNSIGNED, medium MEDIUMINT, umedium MEDIUMINT UNSIGNED,
  whole INT, uwhole INT UNSIGNED, big BIGINT, ubig BIGINT UNSIGNED,
  flag BIT(1), bits BIT(13), made YEAR, colour ENUM('red', 'green', 'blue'), marks SET('a', 'b', 'c', 'd', 'e', 'f', 'g', 'h', 'i'),
  letters CHAR(10), words VARCHAR(300), story TEXT, tale MEDIUMTEXT CHARACTER SET latin1,
  fixed BINARY(8), raw VARBINARY(300), blob_of_bytes BLOB, more_bytes MEDIUMBLOB,
  amount DECIMAL(20, 5), day DATE, at_second DATETIME, at_milli DATETIME(3), span TIME, span_micro TIME(6),
  stamp TIMESTAMP NULL, stamp_milli TIMESTAMP(3) NULL
);
