# Sourced, not run:  MYSQL_DIR=FOLDER . examples/mysql/servers.sh
# MySQL servers of their own, out of Debian's packages unpacked into MYSQL_DIR: nothing is installed, and all listen on 127.0.0.1 alone.
#   mysql_get                  fetches and unpacks mysql-server-core and mysql-client-core of Debian's sid (once; some 70 MB)
#   mysql_init N               a new empty data folder for server N (1 to 9)
#   mysql_start N [OPTION..]   starts server N with GTIDs, a binary log in row format, full row images and full metadata
#   mysql_cli N [ARGUMENT..]   the client of server N
#   mysql_log N [ARGUMENT..]   the text of server N's binary logs, as `gtidrep import` reads it; its status is not 0 where mysqlbinlog failed,
#                              and then the text is not that of the whole log, though it ends as one
#   mysql_stop N               stops server N
# Server N listens on port ${MYSQL_PORTS:-3316}N.
: "${MYSQL_DIR:?a folder for the packages and the data}"
mkdir -p "$MYSQL_DIR"
MYSQL_DIR=$(cd "$MYSQL_DIR" && pwd)
mysql_root=$MYSQL_DIR/root

mysql_get() (
  set -e
  [ -x "$mysql_root/usr/sbin/mysqld" ] && exit 0
  cd "$MYSQL_DIR"
  mkdir -p apt/sources apt/state/lists/partial apt/cache/archives/partial root
  touch apt/state/status
  mirror=$(grep -rhoE 'https?://[^ ]+/debian/?( |$)' /etc/apt/sources.list /etc/apt/sources.list.d 2>/dev/null | head -1 | tr -d ' ' || true)
  printf 'Types: deb\nURIs: %s\nSuites: sid trixie\nComponents: main\nSigned-By: /usr/share/keyrings/debian-archive-keyring.gpg\n' \
    "${mirror:-http://deb.debian.org/debian}" >apt/sources/sid.sources
  cat >apt/apt.conf <<CONF
Dir::Etc::sourcelist "/dev/null";
Dir::Etc::sourceparts "$PWD/apt/sources";
Dir::State "$PWD/apt/state";
Dir::State::status "$PWD/apt/state/status";
Dir::Cache "$PWD/apt/cache";
APT::Sandbox::User "root";
Debug::NoLocking "1";
CONF
  export APT_CONFIG=$PWD/apt/apt.conf
  apt-get update -q
  apt-get install -q -y --download-only --no-install-recommends -t sid mysql-server-core mysql-client-core
  for it in apt/cache/archives/*.deb; do dpkg-deb -x "$it" root; done
)

# Runs a program of the packages over the C library that came with it.
mysql_run() {
  local program=$1
  shift
  "$mysql_root/usr/lib/x86_64-linux-gnu/ld-linux-x86-64.so.2" \
    --library-path "$mysql_root/usr/lib/x86_64-linux-gnu:$mysql_root/usr/lib/mysql/private" "$mysql_root/usr/$program" --no-defaults "$@"
}

mysql_server() {
  mysql_run sbin/mysqld --user=root --basedir="$mysql_root/usr" --lc-messages-dir="$mysql_root/usr/share/mysql" \
    --character-sets-dir="$mysql_root/usr/share/mysql/charsets" "$@"
}

mysql_cli() {
  local server=$1
  shift
  mysql_run bin/mysql -uroot -S "$MYSQL_DIR/data/$server/socket" "$@"
}

mysql_log() {
  local server=$1
  shift
  mysql_run bin/mysqlbinlog -v --base64-output=decode-rows --print-table-metadata --verify-binlog-checksum "$@" "$MYSQL_DIR/data/$server/d"/bin.0*
}

mysql_init() {
  rm -rf "$MYSQL_DIR/data/$1"
  mkdir -p "$MYSQL_DIR/data/$1"
  mysql_server --initialize-insecure --datadir="$MYSQL_DIR/data/$1/d" >"$MYSQL_DIR/data/$1/init.log" 2>&1
}

mysql_start() {
  local server=$1 folder=$MYSQL_DIR/data/$1
  shift
  mysql_server --datadir="$folder/d" --plugin-dir="$mysql_root/usr/lib/mysql/plugin" --socket="$folder/socket" --pid-file="$folder/pid" \
    --bind-address=127.0.0.1 --port="${MYSQL_PORTS:-3316}$server" --mysqlx=OFF --server-id="$server" --gtid-mode=ON --enforce-gtid-consistency=ON \
    --log-bin=bin --relay-log=relay --binlog-format=ROW --binlog-row-image=FULL --binlog-row-metadata=FULL \
    --innodb-flush-log-at-trx-commit=0 --sync-binlog=0 --innodb-buffer-pool-size=64M --performance-schema=OFF --skip-name-resolve \
    --secure-file-priv="" --log-error="$folder/errors.err" "$@" >"$folder/output" 2>&1 &
  for _ in $(seq 240); do
    mysql_cli "$server" -e 'SELECT 1' >/dev/null 2>&1 && return 0
    sleep 0.5
  done
  echo "server $server did not start: $folder/errors.err" >&2
  return 1
}

mysql_stop() {
  mysql_cli "$1" -e SHUTDOWN 2>/dev/null
  for _ in $(seq 120); do
    [ -e "$MYSQL_DIR/data/$1/pid" ] || return 0
    sleep 0.5
  done
  kill "$(cat "$MYSQL_DIR/data/$1/pid")"
}
