# Sourced, not run, after ../mysql/servers.sh: the databases, out of Debian's packages. Nothing of them is installed or started.
#   real_get                 fetches and unpacks the packages (once; some 95 MB)
#   real_databases           the names of the databases
#   real_packages            a line `<package> <version>` for each package
#   real_schema DATABASE     prints the statements that make the database, as its package has them
# shellcheck shell=bash disable=SC2154
real_here=$(cd "$(dirname "${BASH_SOURCE[0]}")" && pwd)
real_root=$MYSQL_DIR/real/root

# A line for each: the database, its package, and the files with its statements.
real_list() {
  cat <<'END'
bacula bacula-director-mysql usr/share/dbconfig-common/data/bacula-director-mysql/install/mysql
cacti cacti usr/share/cacti/conf_templates/cacti.sql
ejabberd ejabberd usr/share/ejabberd/sql/mysql.new.sql
icingadb icingadb usr/share/icingadb/schema/mysql/schema.sql
kamailio kamailio-mysql-modules usr/share/kamailio/mysql/standard-create.sql usr/share/kamailio/mysql/[!s]*-create.sql usr/share/kamailio/mysql/s[!t]*-create.sql
pdns pdns-backend-mysql usr/share/pdns-backend-mysql/schema/schema.mysql.sql usr/share/pdns-backend-mysql/schema/enable-foreign-keys.mysql.sql
phpmyadmin phpmyadmin usr/share/phpmyadmin/sql/create_tables.sql
radius freeradius-config etc/freeradius/3.0/mods-config/sql/main/mysql/schema.sql etc/freeradius/3.0/mods-config/sql/[ci]*/mysql/schema.sql
roundcube roundcube-core usr/share/roundcube/SQL/mysql.initial.sql
rt5 request-tracker5 usr/share/request-tracker5/etc/schema.mysql
wordpress wordpress usr/share/wordpress/wp-admin/includes/schema.php
zabbix zabbix-server-mysql usr/share/zabbix-server-mysql/schema.sql.gz
END
}

real_databases() { real_list | cut -d' ' -f1; }

real_get() (
  set -e
  mysql_get
  export APT_CONFIG=$MYSQL_DIR/apt/apt.conf
  mkdir -p "$real_root" "$MYSQL_DIR/real/packages"
  cd "$MYSQL_DIR/real/packages"
  for it in $(real_list | cut -d' ' -f2); do
    [ -e "$it.done" ] && continue
    apt-get download -q "$it"
    dpkg-deb -x "$it"_*.deb "$real_root"
    touch "$it.done"
  done
)

real_packages() { for it in "$MYSQL_DIR"/real/packages/*.deb; do dpkg-deb -W --showformat='${Package} ${Version}\n' "$it"; done; }

# A file's statements: those in PHP stand in its strings, with the names of tables as $wpdb's.
real_statements() {
  case $1 in
    *.gz) gzip -dc "$1" ;;
    *.php) python3 "$real_here/rows.py" php "$1" ;;
    *) cat "$1" ;;
  esac
}

# (They are taken as the applications take them, which know neither strict modes nor which database they get.)
real_schema() {
  local package files
  read -r _ package files < <(grep "^$1 " <(real_list))
  printf 'CREATE DATABASE `%s`;\nUSE `%s`;\nSET SESSION sql_mode = "";\n' "$1" "$1"
  # shellcheck disable=SC2086
  (cd "$real_root" && for it in $files; do real_statements "$it"; done) | sed '/^DELIMITER \/\/$/{N;N;/SET @sqlmode/s/^DELIMITER[^\n]*//}'
}
