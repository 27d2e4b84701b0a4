# Sourced by check, not run: cases of rows that differ (--diff), and of values that aren't printed (--no-values).
# shellcheck shell=bash disable=SC2034,SC2154

# ---- the rows in which servers differ

# The lines that --diff has to print for a table (id, v), by SELECT on both servers: rows of both with another value, and rows of one alone.
selected() {
  local it
  for it in 1 2; do ask $it "SELECT id, v FROM $1" | sed 's/NULL/null/' | sort -k 1,1 >"$work/$name.select.$it"; done
  join -a 1 -a 2 -e none -o 0,1.2,2.2 "$work/$name.select.1" "$work/$name.select.2" | awk -v table="$1" '
    function has(name, value) {return name (value == "none" ? " has none" : " has " $1 " " value)}
    $2 != $3 && $2 != "none" && $3 != "none" {print "  " table " " $1 ": column 1: east " $2 ", west " $3}
    $2 == "none" || $3 == "none" {print "  " table " " $1 ": " has("east", $2) ", " has("west", $3)}'
}

# The lines of --diff are those.
differ_as_selected() {
  local printed
  printed=$(sed -n '/^Rows in which east, west differ/,/^$/p' "$work/$name" | grep '^  ' || true)
  if [ -n "$printed" ] && [ "$printed" = "$(selected "$1")" ]; then echo "$name: $(wc -l <<<"$printed") rows differ, as SELECT says"; else
    failed=1
    echo "$name: WRONG: --diff isn't what SELECT says:"
    diff <(selected "$1") <(echo "$printed") | sed 's/^/  /' | head -20
  fi
}

differ_split_brain() {
  begin "$plain INSERT INTO t VALUES (1, 1), (2, 2), (3, 3), (4, NULL), (-5, 5);"
  east 'UPDATE d.t SET v = 10 WHERE id = 1; DELETE FROM d.t WHERE id = 2; UPDATE d.t SET v = NULL WHERE id = 3; INSERT INTO d.t VALUES (6, 6), (10, 10), (9, 9)'
  west 'UPDATE d.t SET v = 11 WHERE id = 1; UPDATE d.t SET v = 4 WHERE id = 4; INSERT INTO d.t VALUES (6, 6), (7, 7)'
  wanted 1 'A split brain' --diff --opening "$work/opening.cnf"
  differ_as_selected d.t
}

# Where the rows of the beginning aren't known, and where nobody sees that the tables weren't empty then.
differ_unknown() {
  begin "$plain $accounts INSERT INTO t VALUES (1, 1)"
  east 'UPDATE d.t SET v = 10'
  wanted 5 'In which rows the servers differ isn.t known, for the rows with which the logs begin aren.t' --diff
  begin "$plain INSERT INTO t VALUES (1, 1)"
  for it in 1 2; do ask $it "UPDATE d.t SET v = 1$it"; done
  wanted 1 "east isn't compared, for its log alone doesn't apply to the rows of the opening" --diff
  present '^In which rows the servers differ isn.t known:$'
}

differ_ring() {
  ring >/dev/null
  wanted 1 'bank|d.account 7: column 1: east 120, west 90' --diff --opening "$work/opening.cnf"
  present "^  d.account 7: column 1: east $(east 'SELECT amount FROM d.account WHERE id = 7'), west $(west 'SELECT amount FROM d.account WHERE id = 7')\$"
  absent 'd.account 8'
}

# Many rows, at random, and the same by what was kept.
differ_many() {
  begin "$plain INSERT INTO t WITH RECURSIVE n AS (SELECT 1 AS id UNION ALL SELECT id + 1 FROM n WHERE id < 900) SELECT id, id FROM n;"
  for it in 1 2; do
    ask $it "UPDATE d.t SET v = v + $it WHERE id % 3 = $it; DELETE FROM d.t WHERE id % 7 = $it; INSERT INTO d.t SELECT id + 1000 * $it, v FROM d.t WHERE id % 11 = 0; UPDATE d.t SET v = 0 WHERE id % 13 = 0"
  done
  wanted 1 'A split brain' --diff --opening "$work/opening.cnf"
  differ_as_selected d.t
}

# After both have replicated each other, they don't differ.
differ_nowhere() {
  apart >/dev/null
  for it in 1 2; do follow $it $((3 - it)); done
  catch_up 1 2; catch_up 2 1
  wanted 0 "By the opening's rows and its own log alone each of east, west has the same rows" --diff
}

# A key of text is compared as the server compares it: 'Hat' and 'hat' are one row, by a prefix too, and its spelling is what differs.
differ_text() {
  begin 'CREATE TABLE t (c VARCHAR(20) PRIMARY KEY, v INT); CREATE TABLE p (c VARCHAR(20) NOT NULL, v INT, PRIMARY KEY (c(3), v)); CREATE TABLE n (id BIGINT PRIMARY KEY, v BIGINT);'
  east 'INSERT INTO d.n VALUES (1, 9223372036854775807), (9223372036854775807, 1)'; west 'INSERT INTO d.n VALUES (1, 9223372036854775806), (9223372036854775806, 1)'
  east "INSERT INTO d.t VALUES ('Hat', 1), ('b', 1); INSERT INTO d.p VALUES ('Hats', 1)"; west "INSERT INTO d.t VALUES ('hat', 1), ('B', 2); INSERT INTO d.p VALUES ('hatch', 1)"
  wanted 1 'A split brain' --diff
  present '^  d.t x486174: column 0: east x486174, west x686174$'
  present '^  d.t x62: column 0: east x62, west x42; column 1: east 1, west 2$'
  present '^  d.p x48617473 1: column 0: east x48617473, west x6861746368$'
  # (as numbers of 53 bits these are equal)
  present '^  d.n 1: column 1: east 9223372036854775807, west 9223372036854775806$'
  present '^  d.n 9223372036854775807: east has 9223372036854775807 1, west has none$'
  present '^  d.n 9223372036854775806: east has none, west has 9223372036854775806 1$'
}

# A server whose log alone doesn't apply isn't compared: its row was changed without its log, or it lacks a transaction.
differ_not() {
  begin "$accounts"
  west 'SET sql_log_bin = 0; UPDATE d.account SET amount = 1; SET sql_log_bin = 1; UPDATE d.account SET amount = 2 WHERE id = 7'; east 'UPDATE d.account SET amount = 3 WHERE id = 8'
  wanted 1 "^  west isn't compared, for its log alone doesn't apply to the rows of the opening: .* \\(does-not-apply [^ ]+:1 E11 change 0 key 0\\)" --diff --opening "$work/opening.cnf"
  present '^In which rows the servers differ isn.t known:$'
  begin "$plain"
  east 'INSERT INTO d.t VALUES (1, 1); INSERT INTO d.t VALUES (2, 2)'
  west "SET gtid_next = '$(mysql_uuid 1):2'; INSERT INTO d.t VALUES (2, 2)"
  wanted 0 "^  west isn't compared, for its log lacks a transaction, though it has a later one of the same source \\(missing $(mysql_uuid 1):1\\)" --diff
}

# Three servers: of a row that one of them hasn't, or has otherwise, all are told.
differ_three() {
  begin "$plain"
  for it in 1 3; do ask $it 'INSERT INTO d.t VALUES (7, 1), (8, 50), (9, 9)'; done
  west 'INSERT INTO d.t VALUES (7, 100), (9, 9)'
  ask 3 "SET sql_log_bin = 0; GRANT REPLICATION SLAVE, REPLICATION CLIENT ON *.* TO 'look'@'127.0.0.1'"
  wanted 1 '^  d.t 7: column 1: copy 1, east 1, west 100$' --diff copy="$work/opening.cnf"
  present '^  d.t 8: copy has 8 50, east has 8 50, west has none$'
  absent '^  d.t 9'
  ask 3 "SET sql_log_bin = 0; REVOKE REPLICATION SLAVE, REPLICATION CLIENT ON *.* FROM 'look'@'127.0.0.1'"
}

# ---- values that aren't printed

number=4711471 text=Zebra17
# The text by its letters and by its bytes, and any bytes at all: a weight is one of the text's too.
planted='4711471|[Zz][Ee][Bb][Rr][Aa]|\bx[0-9a-f]{4,}'

# With --no-values nothing of the planted values is there, on standard output or standard error, and without it something is: hushed STATUS 'SENTENCE' [OPTION..].
hushed() {
  wanted "$@"
  present "$planted"
  still "$@"
}
# The same of what shows no value in either case.
still() {
  wanted "$1" "$2" --no-values --diff "${@:3}"
  absent "$planted"
}

hushed_shared() {
  begin 'CREATE TABLE t (id INT PRIMARY KEY, c VARCHAR(200) UNIQUE, v INT);'
  east "INSERT INTO d.t VALUES ($number, '$text', $number)"; west "INSERT INTO d.t VALUES ($number, 'other', 1)"
  hushed 1 '^audit: shared [^ ]+ [^ ]+ d\.t 0'
  present '^audit: shared [^ ]+ [^ ]+ d\.t 0 \.\.$'
  present '^  d.t: 1 rows with other values, 0 rows that not all servers have$'
  begin 'CREATE TABLE t (id INT PRIMARY KEY, c VARCHAR(200) UNIQUE, v INT);'
  east "INSERT INTO d.t VALUES (1, '$text', $number)"; west "INSERT INTO d.t VALUES (2, '$text', $number)"
  hushed 1 '^audit: shared [^ ]+ [^ ]+ d\.t 1'
}

hushed_row_keys() {
  begin 'CREATE TABLE bare (n INT, c VARCHAR(20));'
  for it in 1 2; do ask $it "INSERT INTO d.bare VALUES ($number, '$text')"; done
  hushed 1 '^audit: shared [^ ]+ [^ ]+ d\.bare 0'
}

# Values that a verdict shows whole, and those of which it shows a part.
hushed_unequal() {
  begin "CREATE TABLE t (id INT PRIMARY KEY, v INT, l LONGTEXT); INSERT INTO t VALUES ($number, 1, REPEAT('$text', 1000)), (2, 2, '$text');"
  for it in 1 2; do follow $it $((3 - it)); done
  for it in 1 2; do ask $it 'STOP REPLICA'; done
  east "UPDATE d.t SET $1"; west "UPDATE d.t SET $2"
  for it in 1 2; do ask $it 'START REPLICA'; done
  catch_up 1 2; catch_up 2 1
  hushed 1 '^audit: unequal' --opening "$work/opening.cnf"
}
hushed_unequal_numbers() { hushed_unequal "v = v + $number WHERE id = $number" "v = v + 1 WHERE id = $number"; }
hushed_unequal_texts() { hushed_unequal "l = CONCAT(l, '$text') WHERE id = $number" "l = CONCAT(l, 'Zebra18') WHERE id = $number"; }

# Two logs with two transactions in different orders, which leave nothing in the end.
hushed_reordered() {
  begin 'CREATE TABLE t (id INT PRIMARY KEY, c VARCHAR(20) UNIQUE);'
  for it in 1 2; do ask $it "INSERT INTO d.t VALUES ($it, '$text'); DELETE FROM d.t"; done
  for it in 1 2; do follow $it $((3 - it)); done
  catch_up 1 2; catch_up 2 1
  hushed 1 '^audit --ordered: reordered'
}

# A server has a transaction of another without the one before it; a number that nobody has.
hushed_not_closed() {
  begin "$plain"
  east "INSERT INTO d.t VALUES ($number, 1); UPDATE d.t SET v = $number WHERE id = $number"
  west "SET sql_log_bin = 0; INSERT INTO d.t VALUES ($number, 1); SET sql_log_bin = 1; SET gtid_next = '$(mysql_uuid 1):2'; UPDATE d.t SET v = $number WHERE id = $number"
  hushed 1 '^audit: not-closed'
}

hushed_missing() {
  begin "$plain"
  east "SET gtid_next = '$(mysql_uuid 1):3'; INSERT INTO d.t VALUES ($number, 1)"
  still 1 '^audit: missing'
}

hushed_not_applied() {
  begin "CREATE TABLE t (id INT PRIMARY KEY, c VARCHAR(20)); INSERT INTO t VALUES ($number, '$text');"
  east "SET sql_log_bin = 0; UPDATE d.t SET c = '${text}9'; SET sql_log_bin = 1; UPDATE d.t SET c = '${text}8'"
  hushed 1 '^audit: does-not-apply' --opening "$work/opening.cnf"
}

# Where all is well rows are in what --diff prints alone.
hushed_sound() {
  begin 'CREATE TABLE t (id INT PRIMARY KEY, c VARCHAR(20));'
  east "INSERT INTO d.t VALUES ($number, '$text')"; west "INSERT INTO d.t VALUES (1, '$text')"
  hushed 0 '^audit: sound' --diff
  begin "$accounts CREATE TABLE t (id INT PRIMARY KEY, c VARCHAR(20)); INSERT INTO t VALUES (1, '$text');"
  east "INSERT INTO d.t VALUES ($number, '$text')"
  still 5 '^audit: sound if rows'
}

# A log that begins later than the opening, and a head with a faulty row: such can't come of a server, so what was collected is edited.
hushed_edited() {
  local left=$work/$name.folder
  purge
  ask 3 "INSERT INTO d.t VALUES ($number, $number)"
  "$check" --to "$left" --opening "$work/opening.cnf" east="$work/east.cnf" west="$work/west.cnf" >"$work/$name" 2>&1 || true
  sed -i 's/^opening .*/opening -/' "$left/head"
  edited 1 '^audit: purged 0 '
  sed -i "s/^row d.t $number .*/row d.t $number $number $number/" "$left/head"
  edited 10 'schema'
  sed -i "s/^row d.t $number .*/row  d.t $number $number/" "$left/head"
  edited 10 'body'
}
edited() {
  local status=0
  "$check" --from "$work/$name.folder" --no-values --diff >"$work/$name" 2>&1 || status=$?
  held 'the status' "$1" $status
  present "$2"
  absent "$planted"
}

# Statements, of whatever form.
hushed_statements() {
  local words
  for words in "CREATE TABLE d.secret (id INT PRIMARY KEY, v VARCHAR(20) DEFAULT '$text')" "CREATE/*$text*/TABLE d.secret (id INT DEFAULT $number PRIMARY KEY)" \
    "/*$text*/ CREATE TABLE d.secret (id INT DEFAULT $number PRIMARY KEY)" "CREATE
TABLE
d.secret(id INT DEFAULT
$number PRIMARY KEY)" "SET SESSION binlog_format = STATEMENT; INSERT INTO d.t SELECT $number, '$text'" "SET SESSION binlog_format = STATEMENT; UPDATE d.t SET c='$text'WHERE id=$number"; do
    begin 'CREATE TABLE t (id INT PRIMARY KEY, c VARCHAR(20));'
    mysql_cli 1 --comments -e "$words" 2>/dev/null
    mysql_cli 2 --comments -e "SET sql_log_bin = 0; $words" 2>/dev/null
    hushed 10 'a transaction is a statement'
  done
}

# Refusals of values and rows.
hushed_refusals() {
  begin 'CREATE TABLE t (id INT PRIMARY KEY, j JSON, c VARCHAR(20), UNIQUE (c));'
  east "INSERT INTO d.t VALUES ($number, JSON_ARRAY('$text', CAST(2.5 AS DECIMAL(3, 1))), NULL)"
  still 10 'a value has no form in a bundle'
  begin 'CREATE TABLE t (id INT PRIMARY KEY, c VARCHAR(20));'
  east "INSERT INTO d.t VALUES ($number, '$text'); SET binlog_row_image = 'MINIMAL'; UPDATE d.t SET c = '${text}1'"
  still 10 "a row hasn't all columns of its table"
  begin 'CREATE TABLE t (id INT PRIMARY KEY, c VARCHAR(20) UNIQUE);'
  east "INSERT INTO d.t VALUES ($number, '$text')"
  for it in 1 2; do ask $it 'SET sql_log_bin = 0; ALTER TABLE d.t MODIFY c VARCHAR(20) COLLATE utf8mb4_0900_as_cs'; done
  still 10 'had another collation when the log was written'
  for it in 1 2; do ask $it 'SET sql_log_bin = 0; ALTER TABLE d.t ADD n INT'; done
  still 10 'The log has rows|a row hasn.t all columns|another collation'
}

# Definitions that differ have literals.
hushed_definitions() {
  begin 'CREATE TABLE t (id INT PRIMARY KEY, v INT);'
  west "SET sql_log_bin = 0; ALTER TABLE d.t ADD e ENUM('a', '$text'), ADD g INT AS (v + $number), ADD UNIQUE of_v ((v * $number))"
  wanted 10 'hold an expression'
  west "SET sql_log_bin = 0; ALTER TABLE d.t DROP KEY of_v"
  hushed 10 'east and west differ in the table d.t: west alone has .column 3 e enum\('
}

# What a server itself says of a statement that fails.
hushed_errors() {
  begin "$plain"
  MYSQL=$work/bin/mysql_refusing hushed 10 "can't be asked: ERROR 1690 \(22003\) at line 1"
}
cat >"$work/bin/mysql_refusing" <<END
#!/usr/bin/env bash
cat >/dev/null
echo "ERROR 1690 (22003) at line 1: BIGINT value is out of range in '($number + 1)'" >&2
exit 1
END
chmod +x "$work/bin/mysql_refusing"
