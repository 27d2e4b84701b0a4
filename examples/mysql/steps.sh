# Sourced, not run, after servers.sh: the steps that merge and failover have in common. It wants `here`, the folder of the files, and
# `gtidrep`, the program; and it sets `opening`.

ask() { mysql_cli "$1" -N -r -e "$2"; }

executed() { ask "$1" 'SELECT @@GLOBAL.gtid_executed' | tr -d '[:space:]'; }

# The tables, the rows and the executed set that servers 1 and 2 begin with: what a bundle calls its opening.
begin() {
  for it in 1 2 3; do mysql_init $it && mysql_start $it; done
  for it in 1 2; do
    mysql_cli $it <"$here/schema.sql"
    ask $it "SET sql_log_bin = 0; CREATE USER 'copy'@'127.0.0.1' IDENTIFIED BY 'copy'; GRANT REPLICATION SLAVE ON *.* TO 'copy'@'127.0.0.1'"
  done
  opening=$("$gtidrep" set union "$(executed 1)" "$(executed 2)")
  # each has the tables, so each counts the other's transactions that made them as executed
  for it in 1 2; do ask $it "SET GLOBAL gtid_purged = '+$("$gtidrep" set subtract "$opening" "$(executed $it)")'"; done
  # the third has the tables by hand, and counts the transactions that made them as executed
  (echo 'SET sql_log_bin = 0;' && cat "$here/schema.sql") | mysql_cli 3
  ask 3 "SET GLOBAL gtid_purged = '$opening'"
}

# The line of a channel, and the log of its server: what the server has executed is read before the log, so all of it has to be there.
channel() {
  echo "channel $1 executed $(executed_word "$2")"
  mysql_log "$2" --exclude-gtids="${opening#-}"
}

# The executed set of a server as a word of a bundle.
executed_word() {
  local set
  set=$("$gtidrep" set normalize "$(executed "$1")")
  echo "${set:--}"
}

# The binary logs of servers 1 and 2 as a bundle.
bundle() {
  echo "bundle 3"
  echo "replica $(ask 3 'SELECT @@server_uuid')"
  echo "opening $opening"
  (echo "SET @db = 'shop';" && cat "$here/tables.sql") | mysql_cli 1 -N -r
  channel east 1
  channel west 2
  echo "done"
}

# The state of the third server, as `gtidrep apply` prints it.
state() {
  echo "executed $("$gtidrep" set normalize "$(executed 3)")"
  (echo "SET time_zone = '+00:00', @db = 'shop';" && cat "$here/rows.sql") | mysql_cli 3 -N -r | mysql_cli 3 -N -r
}

# A server replicates another by a channel of its own.
follow() {
  ask "$1" "CHANGE REPLICATION SOURCE TO SOURCE_HOST='127.0.0.1', SOURCE_PORT=${MYSQL_PORTS:-3316}$2, SOURCE_USER='copy', SOURCE_PASSWORD='copy',
    SOURCE_AUTO_POSITION=1, GET_SOURCE_PUBLIC_KEY=1 FOR CHANNEL 'c$2'; START REPLICA FOR CHANNEL 'c$2'"
}

# Waits until a server has executed what another has.
catch_up() { ask "$1" "SELECT WAIT_FOR_EXECUTED_GTID_SET('$(executed "$2")', 600)" >/dev/null; }

# Says whether the third server holds what was foretold.
hold_against() {
  state >"$work/held"
  cmp "$1" "$work/held"
  echo "apply foretold what the third server holds: its gtid_executed, and all $(grep -c '^row ' "$work/held") rows"
}
