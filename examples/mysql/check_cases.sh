# Sourced by check, not run: cases of servers, settings, tables and logs.
# shellcheck shell=bash disable=SC2034,SC2154

apart() {
  begin "$plain"
  east 'INSERT INTO d.t VALUES (1, 1)'; west 'INSERT INTO d.t VALUES (2, 2)'
  wanted 0 'The histories of east, west can be merged'
}

same_key() {
  begin "$plain"
  east 'INSERT INTO d.t VALUES (1, 4711)'; west 'INSERT INTO d.t VALUES (1, 4712)'
  wanted 1 'A split brain: two sources wrote one key'
  present '^  [0-9a-f-]+:1: east, bin.000001 at 158, 20'
  present '^  [0-9a-f-]+:1: west, bin.000001 at 158, 20'
}

without_values() {
  same_key >/dev/null
  wanted 1 'shared [^ ]+ [^ ]+ d\.t 0 \.\.$' --no-values
  absent 4711
}

failover() {
  begin "$accounts"
  east 'UPDATE d.account SET amount = amount - 10 WHERE id = 7'
  follow 2 1; catch_up 2 1; west 'STOP REPLICA; UPDATE d.account SET amount = amount + 5 WHERE id = 7'
  wanted 0 'A failover: two sources wrote one key, but one after the other' --opening "$work/opening.cnf"
}

ring() {
  begin "$accounts"
  follow 1 2; follow 2 1
  for it in 1 2; do ask $it 'STOP REPLICA'; done
  east 'UPDATE d.account SET amount = amount - 10 WHERE id = 7'; west 'UPDATE d.account SET amount = amount + 20 WHERE id = 7'
  for it in 1 2; do ask $it 'START REPLICA'; done
  catch_up 1 2; catch_up 2 1
  wanted 1 'Two logs have different transactions under one GTID: a lost update in a ring' --opening "$work/opening.cnf"
}

# East's first file is purged, and server 3 has what was in it.
purge() {
  begin "$plain"
  east 'INSERT INTO d.t VALUES (1, 1)'
  for it in 2 3; do follow $it 1; catch_up $it 1; ask $it 'STOP REPLICA'; done
  purge_first
  east 'UPDATE d.t SET v = 2; INSERT INTO d.t VALUES (3, 3)'; west 'INSERT INTO d.t VALUES (2, 2)'
}

# (A file isn't purged while a thread that sent it to a replica hasn't ended yet.)
purge_first() {
  east 'FLUSH BINARY LOGS'
  for _ in $(seq 100); do
    east "PURGE BINARY LOGS TO 'bin.000002'"
    [ "$(east 'SHOW BINARY LOGS' | wc -l)" -gt 1 ] || return 0
    sleep 0.1
  done
}

purged() {
  purge
  wanted 5 'audit: sound if rows$'
  present 'The beginning is the executed set [^ ]*:1, what any of the servers has purged. The rows there aren.t known'
}

# The same, and both then write one key.
purged_same_key() {
  purge
  east 'UPDATE d.t SET v = 4 WHERE id = 1'; west 'UPDATE d.t SET v = 5 WHERE id = 1'
  wanted 1 'A split brain: two sources wrote one key'
}

# West hasn't executed what east purged, and takes the key that it took: both servers stop when they replicate each other.
purged_not_executed() {
  purge
  west "SET sql_log_bin = 0; TRUNCATE d.t; RESET BINARY LOGS AND GTIDS; SET sql_log_bin = 1; INSERT INTO d.t VALUES (5, 5)"
  wanted 5 'audit: sound if opening west [^ ]*:1, rows$'
}

# Nothing is purged, but a table had rows before the logs began.
older_rows() {
  begin "$plain $accounts"
  east 'INSERT INTO d.t VALUES (1, 1)'; west 'INSERT INTO d.t VALUES (2, 2)'
  wanted 5 'The rows there aren.t known, for tables have rows that are older than the logs \(2, the first is d.account of east'
  wanted 0 'The beginning is the executed set \(empty\) with 2 rows' --opening "$work/opening.cnf"
}

opening() {
  purge
  wanted 0 'The beginning is the executed set [^ ]*:1 with 1 rows' --opening "$work/opening.cnf"
}

# The server of --opening stands before what was purged.
opening_too_early() {
  purge
  ask 3 'SET sql_log_bin = 0; TRUNCATE d.t; RESET BINARY LOGS AND GTIDS'
  wanted 10 "east: the transactions [^ ]*:1 are purged, and the server of --opening hasn't executed them" --opening "$work/opening.cnf"
}

# West hasn't executed what was purged, and takes the key that it took.
opening_not_executed() {
  purge
  west "SET sql_log_bin = 0; TRUNCATE d.t; RESET BINARY LOGS AND GTIDS; SET sql_log_bin = 1; INSERT INTO d.t VALUES (5, 5)"
  wanted 5 'assume opening west [^ ]*:1' --opening "$work/opening.cnf"
  present "^  west hasn't executed $(mysql_uuid 1):1, which the opening has: the verdict speaks of servers that have executed it"
}

# West was made from a dump: what it has executed stands in none of its files.
not_in_files() {
  begin "$plain"
  west "SET GLOBAL gtid_purged = '+$(mysql_uuid 3):1-5'"
  east 'INSERT INTO d.t VALUES (1, 1)'; west 'INSERT INTO d.t VALUES (2, 2)'
  wanted 5 "audit: sound if opening east $(mysql_uuid 3):1-5, rows\$"
}

# The first file is purged while gtidrep-collect asks: what is before the first file that it gets is of the opening too.
purged_meanwhile() {
  two_files
  BEFORE='SHOW BINARY LOGS' MYSQL=$work/bin/mysql_and_purge wanted 5 'audit: sound if opening west [^ ]*:1, rows$'
  present "The beginning is the executed set $(mysql_uuid 1):1, what any of the servers has purged"
  two_files
  BEFORE='SHOW BINARY LOGS' MYSQL=$work/bin/mysql_and_purge wanted 10 "east: the transactions $(mysql_uuid 1):1 are purged, and the server of --opening hasn't" --opening "$work/opening.cnf"
}
two_files() {
  begin "$plain"
  east 'INSERT INTO d.t VALUES (1, 1); FLUSH BINARY LOGS; INSERT INTO d.t VALUES (3, 3)'; west 'INSERT INTO d.t VALUES (2, 2)'
}
cat >"$work/bin/mysql_and_purge" <<END
#!/usr/bin/env bash
statements=\$(cat)
[[ \$statements != "\$BEFORE" || "\$*" != */east.cnf* ]] || "$work/bin/mysql" --no-defaults -uroot -S "$MYSQL_DIR/data/1/socket" -e "PURGE BINARY LOGS TO 'bin.000002'"
exec "$work/bin/mysql" "\$@" <<<"\$statements"
END

statement() {
  begin "$plain"
  east "INSERT INTO d.t VALUES (1, 1); CREATE TABLE d.secret (id INT PRIMARY KEY, v VARCHAR(20) DEFAULT 'hushed')"
  west "CREATE INDEX of_v ON d.t (v); SET sql_log_bin = 0; CREATE TABLE d.secret (id INT PRIMARY KEY, v VARCHAR(20) DEFAULT 'hushed')"
  wanted 10 "CREATE TABLE d.secret \(id INT PRIMARY KEY, v VARCHAR\(20\) DEFAULT 'hushed'\)"
  present 'transaction [0-9a-f-]+:2$'
  present 'the logs have 2 statements in all'
  present ':1: CREATE INDEX of_v ON d.t \(v\)'
  wanted 10 'in the log of east, bin.000001 at [0-9]+, a transaction is a statement' --no-values
  absent hushed
}

# Statements that an operator answers for, and one that nobody can.
accepted() {
  begin "$plain"
  east "CREATE USER 'somebody'@'localhost'; INSERT INTO d.t VALUES (1, 1); CREATE VIEW d.w AS SELECT 1"; west 'INSERT INTO d.t VALUES (2, 2)'
  wanted 10 "--accept $(mysql_uuid 1):1:3\$"
  wanted 5 "audit: sound if statements east $(mysql_uuid 1):1:3\$" --accept "$(mysql_uuid 1):1:3"
  wanted 10 "--accept $(mysql_uuid 1):1:3\$" --accept "$(mysql_uuid 1):3"
  wanted 2 "'hat' is no set of GTIDs" --accept hat
  east 'ALTER TABLE d.t ADD x INT'; west 'SET sql_log_bin = 0; ALTER TABLE d.t ADD x INT'
  wanted 10 'ALTER TABLE d.t ADD x INT' --accept "$(mysql_uuid 1):1-9"
  absent '  taken, if you answer'
}
mysql_uuid() { ask "$1" 'SELECT @@server_uuid'; }

settings() {
  begin "$plain"
  east "SET GLOBAL binlog_row_image = 'MINIMAL', GLOBAL binlog_transaction_compression = ON"; west "SET GLOBAL binlog_row_value_options = 'PARTIAL_JSON'"
  wanted 10 'east: binlog_row_image is MINIMAL, and has to be FULL'
  present 'east: binlog_transaction_compression is ON, and has to be OFF'
  present 'west: binlog_row_value_options is PARTIAL_JSON, and has to be empty'
}

filters() {
  begin "$plain"
  for it in 1 2; do
    follow $it $((3 - it)); ask $it "STOP REPLICA; CHANGE REPLICATION FILTER REPLICATE_IGNORE_DB = (nothing)"
  done
  wanted 10 'east: by the filter REPLICATE_IGNORE_DB is nothing'
  present 'west: by the filter Replicate_Ignore_DB is nothing'
  for it in 1 2; do ask $it 'CHANGE REPLICATION FILTER REPLICATE_IGNORE_DB = ()'; done
}

# What is set when a server starts.
started_otherwise() {
  begin "$plain"
  for it in 1 2; do mysql_stop $it; done
  mysql_start 1 --performance-schema=ON --log-replica-updates=OFF --binlog-ignore-db=nothing
  mysql_start 2 --skip-log-bin --log-replica-updates=OFF --gtid-mode=OFF --enforce-gtid-consistency=OFF --binlog-format=STATEMENT
  wanted 10 'east, west: log_replica_updates is OFF, and has to be ON'
  present 'east: by the filter Binlog_Ignore_DB is nothing'
  present 'west: log_bin is OFF, and has to be ON'
  present 'west: gtid_mode is OFF, and has to be ON'
  present 'west: binlog_format is STATEMENT, and has to be ROW'
  for it in 1 2; do mysql_stop $it; done
  mysql_start 1 --performance-schema=ON
  mysql_start 2
}

one_server() {
  begin "$plain"
  wanted 10 'copy and east are one server, or two with one server_uuid' copy="$work/east.cnf"
}

tags() {
  begin "$plain"
  west "SET gtid_next = 'AUTOMATIC:hat'; INSERT INTO d.t VALUES (1, 1)"
  wanted 10 'west: it has executed transactions whose GTIDs have tags'
}

# Servers of older versions, and of MariaDB, as a client would see them (none was run).
older_servers() {
  begin "$plain CREATE TABLE parent (id INT PRIMARY KEY); CREATE TABLE child (id INT PRIMARY KEY, p INT, CONSTRAINT up FOREIGN KEY (p) REFERENCES parent (id) ON DELETE CASCADE);"
  wanted 5 'audit: sound if references'
  ASKED="s/@@version/'8.4.6'/g" MYSQL=$work/bin/mysql_edited wanted 10 "foreign keys whose changes a server before 9.7 doesn't log \(1\): d.child.up\."
  ANSWERED='s/^(version\t).*/\111.8.2-MariaDB/' MYSQL=$work/bin/mysql_edited wanted 10 'it is MariaDB'
  ANSWERED='s/^(version\t).*/\15.7.44/' MYSQL=$work/bin/mysql_edited wanted 10 'it is MySQL 5.7.44'
}
cat >"$work/bin/mysql_edited" <<END
#!/usr/bin/env bash
set -o pipefail
sed "\${ASKED:-}" | "$work/bin/mysql" "\$@" | sed -E "\${ANSWERED:-}"
END
chmod +x "$work"/bin/*

# Tables that can't be taken, and then the same without them.
odd="CREATE TABLE odd (id INT PRIMARY KEY, f FLOAT UNIQUE, j JSON, c VARCHAR(20) COLLATE utf8mb4_da_0900_ai_ci UNIQUE, p VARCHAR(20) COLLATE utf8mb4_da_0900_ai_ci, n INT, UNIQUE (p(4)), UNIQUE ((n * n)));
  CREATE TABLE parent (id INT PRIMARY KEY); CREATE TABLE child (id INT PRIMARY KEY, p INT, CONSTRAINT up FOREIGN KEY (p) REFERENCES parent (id));
  CREATE TABLE bare (n INT); CREATE TABLE old (id INT PRIMARY KEY) ENGINE = MyISAM; CREATE TABLE Capital (id INT PRIMARY KEY);
  CREATE DATABASE e; CREATE TABLE e.t (id INT PRIMARY KEY);"

tables() {
  begin "$plain $odd"
  wanted 10 "columns of keys of collations that aren't taken \(1\): d.odd.c \(utf8mb4_da_0900_ai_ci\)"
  present 'hold a prefix of a column of a collation .* \(1\): d.odd.p'
  present 'hold an expression \(1\): d.odd.functional_index'
  present "tables that aren't of InnoDB \\(1\\): d.old"
  absent 'JSON|Capital|FLOAT|e\.t|bare'
  wanted 10 'tables without a primary key or a unique key without NULLs \(1\): d.bare' --opening "$work/opening.cnf"
}

left_out=(--exclude-table d.odd --exclude-table d.child --exclude-table d.bare --exclude-table d.old)

excluded() {
  begin "$plain $odd"
  east 'INSERT INTO d.t VALUES (1, 1)'; west 'INSERT INTO d.t VALUES (2, 2)'
  wanted 0 'These tables were left out, and no log may have rows of them: d.odd' "${left_out[@]}"
}

excluded_written() {
  excluded >/dev/null
  east 'INSERT INTO d.bare VALUES (1)'
  wanted 10 'east: the log has rows of tables that were left out, .* \(1\): d.bare' "${left_out[@]}"
}

# Two databases have a table t each: rows of the one aren't taken for those of the other.
other_database() {
  begin "$plain CREATE DATABASE e; CREATE TABLE e.t (id INT PRIMARY KEY, v INT UNIQUE);"
  east 'INSERT INTO d.t VALUES (1, 1)'; west 'INSERT INTO e.t VALUES (1, 1)'
  wanted 0 'The histories of east, west can be merged'
  east 'INSERT INTO e.t VALUES (2, 1)'
  wanted 1 '^audit: shared [^ ]+:2 [^ ]+:1 e\.t 1 1$'
  wanted 10 'east, west: the log has rows of tables that were left out, .* \(1\): e.t' --exclude-table e.t
}

# Names that a bundle spells with escapes.
names() {
  begin "CREATE DATABASE e; CREATE TABLE e.\`Ä b.c%\` (\`x y\` INT PRIMARY KEY, \`a\`\`b\` INT); CREATE TABLE e.\`ä b.c%\` LIKE e.\`Ä b.c%\`;
    INSERT INTO e.\`Ä b.c%\` VALUES (9, 9);"
  east 'INSERT INTO e.`Ä b.c%` VALUES (1, 1)'; west 'INSERT INTO e.`ä b.c%` VALUES (1, 1)'
  wanted 0 'The beginning is the executed set \(empty\) with 1 rows' --opening "$work/opening.cnf"
  wanted 5 'the first is e.Ä b.c% of west'
  wanted 10 'the log has rows of tables that were left out, .* \(1\): e.ä b.c%' --exclude-table 'e.ä b.c%'
  west 'INSERT INTO e.`Ä b.c%` VALUES (1, 2)'
  wanted 1 '^audit: shared [^ ]+:1 [^ ]+:2 e\.%c3%84%20b%2ec%25 0 1$'
}

# Keys on the first characters or bytes of a column, and of FLOAT and DOUBLE.
prefixes() {
  begin 'CREATE TABLE t (id INT PRIMARY KEY, c VARCHAR(20), b BLOB, UNIQUE (c(2)), UNIQUE (b(3)));'
  east "INSERT INTO d.t VALUES (1, 'ab', 'abcd')"; west "INSERT INTO d.t VALUES (2, 'a', 'abd')"
  wanted 0 'The histories of east, west can be merged'
  west "INSERT INTO d.t VALUES (3, 'ÁBc', NULL)"
  wanted 1 '^audit: shared [^ ]+:1 [^ ]+:2 d\.t 2 '
  begin 'CREATE TABLE t (id INT PRIMARY KEY, c VARCHAR(20), b BLOB, UNIQUE (c(2)), UNIQUE (b(3)));'
  east "INSERT INTO d.t VALUES (1, 'ab', 'abcd')"; west "INSERT INTO d.t VALUES (2, 'b', 'abcx')"
  wanted 1 '^audit: shared [^ ]+:1 [^ ]+:1 d\.t 1 '
}

# A server fills up what is in a CHAR and in a BINARY.
fixed_prefixes() {
  begin 'CREATE TABLE t (id INT PRIMARY KEY, c CHAR(20), b BINARY(20), UNIQUE (c(4)), UNIQUE (b(4)));'
  east "INSERT INTO d.t VALUES (1, 'ab', 'a')"; west "INSERT INTO d.t VALUES (2, 'abx', 'a\0x')"
  wanted 0 'The histories of east, west can be merged'
  west "INSERT INTO d.t VALUES (3, 'aB  cd', NULL)"
  wanted 1 '^audit: shared [^ ]+:1 [^ ]+:2 d\.t 2 '
  begin 'CREATE TABLE t (id INT PRIMARY KEY, c CHAR(20), b BINARY(20), UNIQUE (c(4)), UNIQUE (b(4)));'
  east "INSERT INTO d.t VALUES (1, 'ab', 'a')"; west "INSERT INTO d.t VALUES (2, 'b', 'a\0\0\0b')"
  wanted 1 '^audit: shared [^ ]+:1 [^ ]+:1 d\.t 1 '
}

zeros() {
  begin 'CREATE TABLE t (id INT PRIMARY KEY, f FLOAT UNIQUE, d DOUBLE UNIQUE);'
  east 'INSERT INTO d.t VALUES (1, 0, 1)'; west 'INSERT INTO d.t VALUES (2, 1, -0e0)'
  wanted 0 'The histories of east, west can be merged'
  west 'INSERT INTO d.t VALUES (3, -0e0, 2)'
  wanted 1 '^audit: shared [^ ]+:1 [^ ]+:2 d\.t 2 x00000000$'
}

# Tables without a primary key: a unique key without NULLs is as good, and else the whole row is the key.
without_key() {
  begin 'CREATE TABLE t (a INT, b INT NOT NULL UNIQUE); CREATE TABLE bare (n INT, c VARCHAR(9) UNIQUE);'
  east 'INSERT INTO d.t VALUES (1, 1); INSERT INTO d.bare VALUES (1, "a"), (1, NULL)'; west 'INSERT INTO d.t VALUES (1, 2); INSERT INTO d.bare VALUES (1, "b")'
  wanted 5 'Changes aren.t applied to rows, for tables have no key but the whole row \(1, the first is d.bare\)'
  wanted 10 'tables without a primary key or a unique key without NULLs \(1\): d.bare' --opening "$work/opening.cnf"
  wanted 10 'the log has rows of tables that were left out, .* \(1\): d.bare' --exclude-table d.bare
  west 'INSERT INTO d.bare VALUES (1, NULL)'
  wanted 1 '^audit: shared [^ ]+:2 [^ ]+:3 d\.bare 0 x31206e756c6c$'
}

without_checksums() {
  begin "$plain"
  for it in 1 2; do ask $it 'SET GLOBAL binlog_checksum = NONE; FLUSH BINARY LOGS'; done
  east 'INSERT INTO d.t VALUES (1, 1)'; west 'INSERT INTO d.t VALUES (2, 2)'
  wanted 5 '^  assume checksums east$'
  present '^  assume checksums west$'
  for it in 1 2; do ask $it 'SET GLOBAL binlog_checksum = DEFAULT'; done
}

different() {
  begin "$plain CREATE TABLE more (id INT PRIMARY KEY, e ENUM('a', 'b'));"
  west "SET sql_log_bin = 0; ALTER TABLE d.more MODIFY e ENUM('b', 'a'); DROP TABLE d.t"
  wanted 10 "east and west differ in the table d.more: east alone has .column 2 e enum\\('a','b'\\)"
  present 'east and west differ in the table d.t: east alone has it'
  begin "$plain CREATE TABLE child (id INT PRIMARY KEY, t INT, CONSTRAINT up FOREIGN KEY (t) REFERENCES t (id));"
  west "SET sql_log_bin = 0; ALTER TABLE d.t ADD UNIQUE of_v (v), ADD KEY (v); ALTER TABLE d.child DROP FOREIGN KEY up"
  wanted 10 'east and west differ in the table d.t: west alone has .unique key of_v \(v\)'
  present 'east and west differ in the table d.child: east alone has .foreign key up \(t\) to d.t \(id\)'
}

# Two texts that the server calls equal are one key: by a collation that is taken, and by one that isn't, with --bytes, they are two.
letter_case() {
  begin 'CREATE TABLE t (id INT PRIMARY KEY, c VARCHAR(20) UNIQUE);'
  east "INSERT INTO d.t VALUES (1, 'Hat')"; west "INSERT INTO d.t VALUES (2, 'hat')"
  wanted 1 '^audit: shared [^ ]+:1 [^ ]+:1 d\.t 1 '
  begin 'CREATE TABLE t (id INT PRIMARY KEY, c VARCHAR(20) COLLATE utf8mb4_da_0900_ai_ci UNIQUE);'
  east "INSERT INTO d.t VALUES (1, 'Hat')"; west "INSERT INTO d.t VALUES (2, 'hat')"
  wanted 5 'assume bytes east d.t: two values that the server calls equal may be two keys here' --bytes
}

# Since the log was written the column got another collation, by which its texts are two keys.
other_collation() {
  begin 'CREATE TABLE t (id INT PRIMARY KEY, c VARCHAR(20) UNIQUE);'
  east "INSERT INTO d.t VALUES (1, 'Hat')"; west "INSERT INTO d.t VALUES (2, 'hat')"
  for it in 1 2; do ask $it 'SET sql_log_bin = 0; ALTER TABLE d.t MODIFY c VARCHAR(20) COLLATE utf8mb4_0900_as_cs'; done
  wanted 10 'the column 1 of the table d.t had another collation when the log was written than it has now'
}

# Types that a log's text hasn't whole, in rows of the opening and in rows of the logs; and without the names of columns in the log.
numbers() {
  begin 'CREATE TABLE t (id INT PRIMARY KEY, f FLOAT, d DOUBLE, g POINT, v VECTOR(2), j JSON);
    INSERT INTO t VALUES (1, 0.1, -0e0, POINT(1, 2), NULL, "{\"b\": 1, \"a\": [0.1, null]}"), (2, -1e-40, 0.1, NULL, TO_VECTOR("[1, 2]"), NULL)'
  for it in 1 2; do ask $it 'SET GLOBAL binlog_row_metadata = MINIMAL; FLUSH BINARY LOGS'; done
  east 'UPDATE d.t SET f = f * 3, d = d + 1, j = JSON_SET(j, "$.a", "é") WHERE id = 1'; west 'UPDATE d.t SET d = d / 3, v = NULL, j = "[1]" WHERE id = 2'
  wanted 0 'The beginning is the executed set \(empty\) with 2 rows' --opening "$work/opening.cnf"
}

# A JSON with a value of an SQL type has no form in a bundle.
json() {
  begin 'CREATE TABLE t (id INT PRIMARY KEY, j JSON);'
  east 'INSERT INTO d.t VALUES (1, "[1, 2.5]")'; west 'INSERT INTO d.t VALUES (2, JSON_ARRAY(CAST(2.5 AS DECIMAL(3, 1))))'
  wanted 10 'in the log of west, bin.000001 at [0-9]+, a value has no form in a bundle \(a JSON with a DECIMAL'
}

# Transactions whose events are packed into one, by a session's own setting.
packed() {
  begin "$plain"
  east 'SET binlog_transaction_compression = ON; INSERT INTO d.t VALUES (1, 1)'; west 'INSERT INTO d.t VALUES (2, 2)'
  wanted 10 'east: the log has transactions whose events are packed into one .* on: bin.000001 [0-9]+\.'
  wanted 10 'east: the log has transactions whose events are packed into one' --opening "$work/opening.cnf"
}

# The transactions of the opening are in no verdict, whatever they hold: a table that was dropped since, and statements.
opening_passed() {
  begin "$plain"
  east 'CREATE TABLE d.gone (id INT PRIMARY KEY); INSERT INTO d.gone VALUES (1); DROP TABLE d.gone; INSERT INTO d.t VALUES (1, 1)'
  for it in 2 3; do follow $it 1; catch_up $it 1; ask $it 'STOP REPLICA'; done
  east 'FLUSH BINARY LOGS; UPDATE d.t SET v = 2'; west 'INSERT INTO d.t VALUES (2, 2)'
  wanted 0 'The beginning is the executed set [^ ]*:1-4 with 1 rows' --opening "$work/opening.cnf"
}
