# Sourced by gtidrep-collect, not run: what of the servers speaks against it, before their logs are read.
#   preflight                looks at all servers, and tells all that speaks against it at once
#   query SERVER NAME        what the query `sql`/NAME.sql prints of the tables that are taken
#   variable SERVER NAME, unescaped
# It wants what gtidrep-collect-reasons.sourced.sh wants and gives, and `ask`, `ask_all`, `set_of`, `names`, `file_of`, `sql`, `opening_file` and `values`.
# shellcheck shell=bash disable=SC2154

# The settings that a log is made by, and what each has to be (nothing: empty).
settings() {
  cat <<'END'
log_bin ON
gtid_mode ON
binlog_format ROW
binlog_row_image FULL
binlog_row_value_options
binlog_transaction_compression OFF
log_replica_updates ON
END
}

look_at_settings() {
  local name wanted
  settings | while read -r name wanted; do
    awk -F'\t' -v name="$name" -v wanted="$wanted" '$1 == name && $2 != wanted {print name " is " $2 ", and has to be " (wanted == "" ? "empty" : wanted)}' "$work/$1.variables"
  done >"$work/found"
  while read -r it; do reason "$1" setting - "$it"; done <"$work/found"
}

variable() { awk -F'\t' -v name="$2" '$1 == name {print $2}' "$work/$1.variables"; }

# The version as a number: 9007 of 9.7.4.
version() { variable "$1" version | awk -F. '{print $1 * 1000 + $2}'; }

# A server of another kind isn't asked any further.
look_at_version() {
  local version
  # (before 8.0.26 a variable has another name)
  ask "$1" 'SHOW GLOBAL VARIABLES' | sed 's/^log_slave_updates\t/log_replica_updates\t/' | sort -u >"$work/$1.variables"
  version=$(variable "$1" version)
  case $version in
    *MariaDB*) reason "$1" version - "it is MariaDB, whose logs and GTIDs are others" ;;
    [0-7].*) reason "$1" version - "it is MySQL $version" ;;
  esac
}

# Filters of the binary log, and of replication.
look_at_filters() {
  local status='SHOW BINARY LOG STATUS'
  [ "$(version "$1")" -ge 8002 ] || status='SHOW MASTER STATUS'
  ask_all "$1" -E --column-names <<<"$status" | sed -nE 's/^ *(Binlog_(Do|Ignore)_DB): (.+)$/\1 is \3/p' >"$work/found"
  if [ "$(variable "$1" performance_schema)" = ON ]; then
    ask "$1" "SELECT CONCAT(FILTER_NAME, ' is ', FILTER_RULE, ' on channel ''', CHANNEL_NAME, '''') FROM performance_schema.replication_applier_filters
      WHERE FILTER_RULE <> '' UNION ALL SELECT CONCAT(FILTER_NAME, ' is ', FILTER_RULE) FROM performance_schema.replication_applier_global_filters WHERE FILTER_RULE <> ''"
  else
    ask_all "$1" -E --column-names <<<'SHOW REPLICA STATUS' | sed -nE 's/^ *(Replicate_[A-Za-z_]+): (.+)$/\1 is \2/p'
  fi >>"$work/found"
  while read -r it; do reason "$1" filter - "$it"; done <"$work/found"
}

# Tables that can't be taken, by preflight.sql, and by the `unsupported` lines of the head.
look_at_tables() {
  local what place table
  ask_all "$1" <"$sql/preflight.sql" | sed "s/^/$1\t/" >>"$work/reasons"
  head_of "$1" >"$work/$1.head"
  sed -n 's/^unsupported //p' "$work/$1.head" >"$work/found"
  while read -r what place; do
    table=$(cut -d. -f1,2 <<<"$place" | unescaped)
    reason "$1" "$what" "$table" "$(unescaped <<<"$place")"
  done <"$work/found"
}

# Names without the escapes of a bundle.
unescaped() { sed 's/\\/\\\\/g; s/%\(..\)/\\x\1/g' | while IFS= read -r it; do printf '%b\n' "$it"; done; }

# What a query of `sql` prints of all tables but those that are excluded. Without --opening the rows aren't known, so that tables need no key.
query() {
  local left_out
  left_out=$(IFS=, && sed "s/[\\\\']/\\\\&/g" <<<"${excluded[*]}")
  { echo "SET @excluded = '$left_out', @no_rows = $([ -n "$opening_file" ] && echo 0 || echo 1);" && cat "$sql/$2.sql"; } | ask_all "$1" -r
}

# The head's lines of these tables.
head_of() { query "$1" tables; }

look_at_definitions() {
  ask_all "$1" <"$sql/definitions.sql" | awk -F'\t' 'NR == FNR {out[$1] = 1; next} !($1 in out)' "$work/excluded" - | sort >"$work/$1.definitions"
  [ -s "$work/$1.definitions" ] || reason "$1" no-table - "no table is seen there"
  [ "$1" = "${names[0]}" ] || compare "${names[0]}" "$1"
}

# With --no-values a definition ends where a literal could begin, in which the value of a row could stand.
hide_literals() {
  if [ $values = 1 ]; then cat; else
    awk -v quote="'" -v plain='\\((([A-Za-z0-9_$]+(\\([0-9]+\\))?)(, )?)+\\)$' '
      function cut(at) {if (at) $0 = substr($0, 1, at) ".."}
      (at = index($0, quote)) > 1 {cut(at - 1)}
      /\tcolumn [0-9]/ {cut(index($0, " AS ("))}
      /\tunique key / && !match($0, plain) {cut(index($0, " ("))}
      {print}'
  fi
}

# What two servers have differently.
compare() {
  local first=$work/$1.definitions second=$work/$2.definitions
  comm -3 "$first" "$second" | hide_literals | awk -F'\t' -v first="$(called "$1")" -v second="$(called "$2")" '
    function add(table, server, what) {if (!(table in seen)) {seen[table] = 1; order[++n] = table}; has[table, server] = has[table, server] (has[table, server] ? "; " : "") what}
    $1 != "" {add($1, first, $2)} $1 == "" {add($2, second, $3)}
    function whole(table, server) {return has[table, server] ~ /(^|; )engine /}
    function side(table, server) {return !has[table, server] ? "" : server " alone has " (whole(table, server) ? "it" : "`" has[table, server] "`")}
    END {for (i = 1; i <= n; i++) {t = order[i]; a = side(t, first); b = side(t, second); print t "\t" t ": " a (a && b ? ", and " : "") b}}' >"$work/found"
  while IFS=$'\t' read -r table it; do reason "$(called "$1") and $(called "$2")" difference "$table" "$it"; done <"$work/found"
}

# What the logs no longer have, though the opening doesn't have it either.
look_at_purged() {
  local lacking executed
  lacking=$(set_of "$1" "GTID_SUBTRACT(@@GLOBAL.gtid_purged, '$opening_now')")
  [ -z "$opening_file" ] || [ -z "$lacking" ] || reason "$1" purged - "$lacking"
  executed=$(set_of "$1" '@@GLOBAL.gtid_executed')
  [[ $executed != *:[a-z_]* ]] || reason "$1" tags - "it has executed transactions whose GTIDs have tags"
}

look_at_uuids() {
  for it in "${names[@]}"; do echo "$(set_of "$it" '@@server_uuid') $it"; done >"$work/uuids"
  awk '{all[$1] = all[$1] (all[$1] ? " and " : "") $2; count[$1]++} END {for (it in all) if (count[it] > 1) print all[it]}' "$work/uuids" >"$work/found"
  while read -r it; do reason "$it" one-server - "$it"; done <"$work/found"
}

look_at() {
  look_at_settings "$1"
  look_at_filters "$1"
  look_at_tables "$1"
  look_at_definitions "$1"
  look_at_purged "$1"
}

# All servers are looked at, and all that speaks against it is told at once.
preflight() {
  local bad=0
  : >"$work/reasons"
  for it in "${!file_of[@]}"; do (ask "$it" 'DO 0') || bad=1; done
  [ "$bad" = 0 ] || exit 10
  for server in "${!file_of[@]}"; do look_at_version "$server"; done
  tell_reasons
  opening_now=''
  [ -z "$opening_file" ] || opening_now=$(set_of OPENING '@@GLOBAL.gtid_executed')
  look_at_uuids
  for server in "${names[@]}"; do look_at "$server"; done
  [ -z "$opening_file" ] || look_at_definitions OPENING
  tell_reasons
}
