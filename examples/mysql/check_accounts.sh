# Sourced by check, not run: cases of accounts and locks, and of what is left on servers and in folders.
# shellcheck shell=bash disable=SC2034,SC2154

refused_account() {
  apart >/dev/null
  sed -i 's/password=look/password=wrong/' "$work/west.cnf"
  wanted 10 "west can't be asked: ERROR 1045"
  sed -i 's/password=wrong/password=look/' "$work/west.cnf"
}

# A login path says how to connect, and what a user's own file of them has for all clients is no part of an option file.
login_paths() {
  apart >/dev/null
  local MYSQL_TEST_LOGIN_FILE=$work/login_paths.file status=0
  export MYSQL_TEST_LOGIN_FILE
  rm -f "$MYSQL_TEST_LOGIN_FILE"
  set_login_path client 9
  wanted 0 'can be merged'
  set_login_path east 1
  set_login_path west 2
  "$check" east=login-path:east west=login-path:west >"$work/$name" 2>&1 || status=$?
  held 'the status by login paths' 0 $status
  present 'The histories of east, west can be merged'
}

# (It asks for the password on a terminal alone.)
set_login_path() {
  python3 - "$1" "${MYSQL_PORTS:-3316}$2" <<'END'
import os, pty, sys
pid, terminal = pty.fork()
if pid == 0:
    os.execvp("mysql_config_editor", ["mysql_config_editor", "set", "--login-path=" + sys.argv[1], "--host=127.0.0.1", "--port=" + sys.argv[2], "--user=look", "--password"])
said = b""
while b":" not in said:
    said += os.read(terminal, 100)
os.write(terminal, b"look\n")
sys.exit(os.waitstatus_to_exitcode(os.waitpid(pid, 0)[1]))
END
}

# Each grant is needed: without it there is no answer, and a sentence says what is missing.
lacking_grants() {
  purge
  without 2 'REPLICATION SLAVE' "west: its binary log can't be read whole: ERROR: Got error reading packet from server: Access denied"
  without 2 'REPLICATION CLIENT' "west can't be asked: ERROR 1227 .* REPLICATION CLIENT.*, to the statement SHOW BINARY LOG STATUS\. Look at $work/west.cnf and at the grants"
  without 2 SELECT 'west: no table is seen there'
  without 3 SELECT 'the server of --opening: no table is seen there'
  without 3 FLUSH_TABLES "the server of --opening can't be asked: ERROR 1227 .* FLUSH_TABLES.*, to the statement FLUSH TABLES WITH READ LOCK;"
}

without() {
  ask "$1" "SET sql_log_bin = 0; REVOKE $2 ON *.* FROM 'look'@'127.0.0.1'"
  wanted 10 "$3" --opening "$work/opening.cnf"
  ask "$1" "SET sql_log_bin = 0; GRANT $2 ON *.* TO 'look'@'127.0.0.1'"
}

# A statement on the server of --opening that runs on keeps its tables from being locked: it is told, and no session is left.
locked() {
  purge
  ask 3 'LOCK TABLES d.t WRITE; DO SLEEP(30)' 2>/dev/null &
  local holder=$!
  sleep 1
  wanted 10 'the server of --opening can.t be asked: ERROR 1205' --opening "$work/opening.cnf"
  kill_sessions "$holder"
}

# So is one of a user who ends the program while it waits.
interrupted() {
  purge
  ask 3 'LOCK TABLES d.t WRITE; DO SLEEP(30)' 2>/dev/null &
  local holder=$! left
  sleep 1
  setsid "$check" --opening "$work/opening.cnf" east="$work/east.cnf" west="$work/west.cnf" >"$work/$name" 2>&1 &
  local asker=$!
  for _ in $(seq 100); do
    ! ask 3 "SELECT INFO FROM information_schema.PROCESSLIST WHERE USER = 'look'" 2>/dev/null | grep -q '^FLUSH TABLES' || break
    sleep 0.1
  done
  kill -TERM -- "-$asker"
  wait "$asker" 2>/dev/null || true
  left=$(ask 3 "SELECT COUNT(*) FROM information_schema.PROCESSLIST WHERE USER = 'look'" 2>/dev/null)
  if [ "$left" = 0 ] && grep -q 'locks the tables' "$work/$name"; then echo "$name: no session is left"; else failed=1; echo "$name: WRONG: $left sessions are left"; fi
  kill_sessions "$holder"
}

kill_sessions() {
  ask 3 "SELECT CONCAT('KILL ', ID, ';') FROM information_schema.PROCESSLIST WHERE INFO LIKE 'DO SLEEP%'" | mysql_cli 3 2>/dev/null || true
  wait "$1" 2>/dev/null || true
}

# What servers did while they were asked: they read alone, and only the server of the opening was locked.
unchanged() {
  local it
  purge
  for it in 1 2 3; do state_of $it >"$work/$name.$it"; counts_of $it >"$work/$name.counts.$it"; done
  wanted 0 'can be merged' --opening "$work/opening.cnf"
  # (the log is sent by one of those that have no name of their own)
  for it in 1 2; do did $it 'admin_commands do empty_query select set_option'; done
  did 3 'begin commit do empty_query flush select set_option unlock_tables'
  for it in 1 2 3; do held "server $it has changed" '' "$(state_of $it | diff "$work/$name.$it" - || true)"; done
}
state_of() { ask "$1" 'SELECT @@GLOBAL.gtid_executed, @@GLOBAL.gtid_purged; SHOW BINARY LOGS; SHOW BINARY LOG STATUS; CHECKSUM TABLE d.t; SHOW GLOBAL VARIABLES' ; }
counts_of() { ask "$1" "SHOW GLOBAL STATUS LIKE 'Com\\_%'"; }
did() { held "server $1 did" "$2" "$(counts_of "$1" | diff "$work/$name.counts.$1" - | sed -nE 's/^> Com_([a-z_]+)\t.*/\1/p' | grep -v '^show_' | sort | paste -sd' ')"; }

# gtidrep-collect by itself, and the line of its help that goes on with what it leaves.
collected() {
  apart >/dev/null
  local verdict left=$work/$name.folder
  "$here/../../bin/gtidrep-collect" --to "$left" east="$work/east.cnf" west="$work/west.cnf" >"$work/$name" 2>&1
  verdict=$(cd "$left" && eval "$("$here/../../bin/gtidrep-collect" --help | sed -n 's/^  cd .tmp.shop && //p')")
  held 'the verdict' sound "$verdict"
  held 'what is left' 'about east/bin.000001 files head options servers statements west/bin.000001' "$(cd "$left" && find . -type f | sed 's,^./,,' | sort | paste -sd' ')"
}

# What was collected is kept, for its owner alone, and is audited without the servers.
kept() {
  apart >/dev/null
  wanted 0 'can be merged' --to "$work/folder"
  [ "$(find "$work/folder" -printf '%m %y\n' | sort -u | paste -sd' ')" = '600 f 700 d' ] || { failed=1; echo "$name: WRONG: others can read it"; }
  local status=0
  "$check" --from "$work/folder" >"$work/$name.from" 2>&1 || status=$?
  if [ $status = 0 ] && cmp <(grep -v '^gtidrep-collect' "$work/$name") "$work/$name.from"; then echo "$name: the same by --from"; else failed=1; echo "$name: WRONG by --from: status $status"; fi
}
