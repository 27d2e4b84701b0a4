# Sourced by gtidrep-collect, not run: what speaks against taking the servers' logs, and the sentences that tell it.
#   reason SERVER WORD TABLE WHAT    notes a reason: its word, the table that it is of (or -), and what it is
#   tell_reasons                     tells all that were noted, if any were, and ends the program
#   about_opening                    what the beginning is, in sentences
# It wants `work` (a folder; its file `reasons` is emptied where reasons are to be noted anew, and `excluded` has the tables that are left out, which
# are also in the variable `excluded`), `muted` (the words that are no reason), `docs` (the folder of the documents), `called` (a server as sentences call it) and `tell`; for the
# beginning also `opening`, `opening_file`, `folder`, `rows_are_known`, `unescaped` and the file `older`, whose lines are `<server> <table>`.
# shellcheck shell=bash disable=SC2154

reason() { printf '%s\t%s\t%s\t%s\n' "$(called "$1")" "$2" "$3" "$4" >>"$work/reasons"; }

# Reasons of one kind and the same servers are one sentence, but for those that speak of one thing each: lines `<reason> TAB <servers> TAB <count> TAB <what>`.
grouped() {
  awk -F'\t' -v muted=" ${!muted[*]} " -v each=' setting version filter no-table difference one-server purged tags damaged ' '
    NR == FNR {out[$1] = 1; next}
    index(muted, " " $2 " ") || $3 in out {next}
    {key = $2 FS $4}
    !(key in servers) {servers[key] = $1; keys[++n] = key; next}
    index(", " servers[key] ", ", ", " $1 ", ") == 0 {servers[key] = servers[key] ", " $1}
    END {
      for (i = 1; i <= n; i++) {
        key = keys[i]; split(key, part, FS); group = part[1] FS servers[key]; what = group (index(each, " " part[1] " ") ? FS part[2] : "")
        if (!(what in count)) {groups[++m] = what; head[what] = group}
        all[what] = all[what] (count[what]++ ? ", " : "") part[2]
      }
      for (i = 1; i <= m; i++) print head[groups[i]] FS count[groups[i]] FS all[groups[i]]
    }' "$work/excluded" "$work/reasons"
}

leave_out='or leave it out by --exclude-table'

# A group of reasons as a sentence that says what to do: its word, the servers, how many there are, and what they are.
sentence() {
  local them=$2 n=$3 what=$4
  case $1 in
    setting) echo "$them: $what. Set it, and begin at an opening after that" ;;
    version) echo "$them: $what. MySQL from 8.0 on is taken" ;;
    filter) echo "$them: by the filter $what transactions or rows may be missing. Take it away, and begin at an opening after that" ;;
    tags) echo "$them: $what. No bundle takes them yet" ;;
    no-table) echo "$them: $what. Give the account SELECT ON *.* there" ;;
    one-server) echo "$what are one server, or two with one server_uuid. Name each server once" ;;
    purged) echo "$them: the transactions $what are purged, and the server of --opening hasn't executed them. Take one that stands later" ;;
    rows-of) echo "$them: the log has rows of tables that were left out, or that aren't there any more ($n): $what. Take them in, or begin at an opening after these rows" ;;
    damaged) echo "$them: the bytes of its log aren't those that a server writes, in the file, at the offset and for the reason $what. Collect again, and if it stays, begin at an opening after it" ;;
    packed) echo "$them: the log has transactions whose events are packed into one (binlog_transaction_compression), in these files from these offsets on: $what. Begin at an opening after them, or go the way by mysqlbinlog's text ($docs/GUIDE.md, 'A bundle from the text of logs')" ;;
    difference) echo "$them differ in the table $what. Make it alike on both, $leave_out" ;;
    engine) echo "$them: tables that aren't of InnoDB ($n): $what. Give each ENGINE=InnoDB, $leave_out" ;;
    collation) echo "$them: columns of keys of collations that aren't taken ($n): $what. Give each one of the collations that gtidrep-collect --help lists, $leave_out, or give --bytes: then two values that a server calls equal may be missed" ;;
    columns) echo "$them: tables with too many columns ($n): $what. Leave each out by --exclude-table" ;;
    keys) echo "$them: tables with too many unique keys ($n): $what. Drop some, $leave_out" ;;
    prefix-key) echo "$them: unique keys that hold a prefix of a column of a collation that isn't taken ($n): $what. Make each a key of the whole column, or leave its table out by --exclude-table" ;;
    expression-key) echo "$them: unique keys that hold an expression ($n): $what. Make each a key of a generated column, or leave its table out by --exclude-table" ;;
    no-primary-key) echo "$them: tables without a primary key or a unique key without NULLs ($n): $what. Give each one, $leave_out, or go without --opening: then a whole row is the key, and rows aren't known" ;;
    foreign-key) echo "$them: foreign keys, which aren't looked at ($n): $what. Give --without-foreign-keys: then the verdict doesn't see what servers do by them. Or leave their tables out by --exclude-table" ;;
    session-column) echo "$them: generated columns whose values go by the session, which a replica computes anew by its own time zone, div_precision_increment or lc_time_names ($n): $what. Make each a plain column, or one that reads no TIMESTAMP, doesn't divide, and names no days or months, $leave_out" ;;
    session-check) echo "$them: CHECKs whose values go by the session, which a replica computes anew by its own time zone, div_precision_increment or lc_time_names ($n): $what. Drop each, $leave_out" ;;
    cascade) echo "$them: foreign keys whose changes a server before 9.7 doesn't log ($n): $what. Such logs lack changes: take servers of 9.7, or foreign keys without cascades" ;;
    *) echo "$them: $1 ($n): $what" ;;
  esac
}

tell_reasons() {
  grouped >"$work/groups"
  [ -s "$work/groups" ] || return 0
  tell "not taken, for these reasons (a table that is left out may have no rows in any log):"
  while IFS=$'\t' read -r word them n what; do echo "  - $(sentence "$word" "$them" "$n" "$what")." >&2; done <"$work/groups"
  exit 10
}

# The tables whose only key is the whole row.
keyless() { sed -n 's/^collate \([^ ]*\) row$/\1/p' "$folder/head.part" | unescaped; }

# Where the logs begin, and whether the rows there are known.
about_opening() {
  if [ -n "$opening_file" ]; then
    echo "The beginning is the executed set ${opening/#-/(empty)} with $(sed 1,2d "$work/opening" | wc -l) rows, read from the server of $opening_file."
  elif [ "$opening" != - ]; then
    echo "The beginning is the executed set $opening, what any of the servers has purged. The rows there aren't known (--opening would name a server that stands there)."
  elif [ -s "$work/older" ]; then
    echo "The beginning is the empty set. The rows there aren't known, for tables have rows that are older than the logs ($(wc -l <"$work/older"), the first is $(head -1 "$work/older" | sed 's/\([^ ]*\) \(.*\)/\2 of \1/'); --opening would name a server that stands there)."
  elif ! rows_are_known; then
    echo "The beginning is the empty set. Changes aren't applied to rows, for tables have no key but the whole row ($(keyless | wc -l), the first is $(keyless | head -1))."
  else
    echo "The beginning is the empty set with empty tables: no server has purged a transaction, and no table has rows of which its log has none."
  fi
  [ ${#excluded[@]} = 0 ] || echo "These tables were left out, and no log may have rows of them: ${excluded[*]}."
}
