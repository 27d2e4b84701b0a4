# Sourced by gtidrep-check, not run: the rows in which servers differ.
#   difference               prints them: each server's rows are those of the opening after its own log alone
# It wants `folder`, `work`, `bundle` (the file), `values`, `granted` and `binlogs` (the options of `gtidrep import`, and its words behind --binlogs), `run`
# (which leaves `status`) and `hide`.
# shellcheck shell=bash disable=SC2154

# The bundle of one channel alone. Its hidden columns are shown: keys then compare as the server compares them.
bundle_alone() {
  local name=$1 it own=()
  for it in "${binlogs[@]}"; do [[ $it != "$name="* ]] || own+=("$it"); done
  run alone.told import "${granted[@]}" --binlogs "${own[@]}" < <(awk -v name="$name" '$1 != "channel" || $2 == name' "$folder/head") >"$work/alone.part"
  sed -E '/^table /s/ hidden [0-9]+$//' "$work/alone.part" >"$work/alone"
}

# Of each row of a state on standard input: `<table> TAB <key> TAB <server> TAB <key, as it is shown> TAB <row, as it is shown>`. A hidden column of a key
# is shown as the column of which it is made.
keyed_rows() {
  awk -v OFS='\t' -v server="$1" '
    NR == FNR && $1 == "table" {width[$2] = $3 - ($(NF - 1) == "hidden" ? $NF : 0); key[$2] = $5}
    NR == FNR && $1 == "collate" {source[$2, width[$2] + made[$2]++] = $3}
    NR == FNR {next}
    $1 != "row" {next}
    {
      n = split(key[$2], columns, ","); compared = shown = row = ""
      for (i = 1; i <= n; i++) {
        place = columns[i]; compared = compared " " $(3 + place)
        shown = shown " " $(3 + (($2, place) in source ? source[$2, place] : place))
      }
      for (i = 0; i < width[$2]; i++) row = row " " $(3 + i)
      print $2, substr(compared, 2), server, substr(shown, 2), substr(row, 2)
    }' "$folder/head" -
}

# Why the rows of a server aren't known, by the verdict on its log alone.
unknown_rows() {
  local why
  case $2 in
    missing*) why="its log lacks a transaction, though it has a later one of the same source" ;;
    does-not-apply*) why="its log alone doesn't apply to the rows of the opening: they are of another time (--opening names a server that stands there), or its rows were changed without its log" ;;
    *) why="its log alone can't be applied" ;;
  esac
  echo "  $1 isn't compared, for $why ($(hide <<<"$2"))."
}

# The rows of a server by its log alone, or a sentence that says why they aren't known.
rows_alone() {
  local verdict
  bundle_alone "$1"
  [ "$status" != 0 ] || run alone.told apply --ordered <"$work/alone" >"$work/state"
  if [ "$status" != 1 ]; then
    keyed_rows "$1" <"$work/state" >>"$work/rows"
    compared+=("$1")
  else
    verdict=$(head -1 "$work/state")
    unknown_rows "$1" "${verdict:-$(head -1 "$work/alone.told")}" >>"$work/not_compared"
  fi
}

# The rows that aren't alike on all servers, by table and key: a line for each, or with --no-values how many they are of each table.
unlike_rows() {
  LC_ALL=C sort -t $'\t' -k 1,1 -k 2,2 "$work/rows" | awk -F'\t' -v all="${compared[*]}" -v values="$values" '
    BEGIN {servers = split(all, name, " ")}
    function told(  i, text) {
      if (n == servers) {for (i in row) if (row[i] != some) return by_columns(); return}
      apart[table]++
      for (i = 1; i <= servers; i++) text = text (i > 1 ? ", " : "") name[i] (name[i] in row ? " has " row[name[i]] : " has none")
      line(text)
    }
    function by_columns(  width, c, i, cells, unlike, values_of, text) {
      other[table]++
      for (i = 1; i <= servers; i++) {width = split(row[name[i]], cells, " "); for (c = 1; c <= width; c++) cell[i, c] = cells[c] ""}
      for (c = 1; c <= width; c++) {
        unlike = 0; values_of = ""
        for (i = 1; i <= servers; i++) {if (cell[i, c] != cell[1, c]) unlike = 1; values_of = values_of (i > 1 ? ", " : "") name[i] " " cell[i, c]}
        if (unlike) text = text (text ? "; " : "") "column " c - 1 ": " values_of
      }
      line(text)
    }
    function line(what) {if (values) print "  " table " " shown ": " what}
    function count(number, what) {return number + 0 " " what}
    $1 SUBSEP $2 != group {if (n) told(); group = $1 SUBSEP $2; n = 0; delete row; if ($1 != table) {tables[++m] = $1}; table = $1; shown = $4}
    {row[$3] = some = $5 ""; n++}
    END {
      if (n) told()
      for (i = 1; i <= m && !values; i++) {
        t = tables[i]
        if (other[t] + apart[t]) print "  " t ": " count(other[t], "rows with other values") ", " count(apart[t], "rows that not all servers have")
      }
    }'
}

difference() {
  local server them compared=()
  if grep -qx -- --no-rows "$folder/options" 2>/dev/null; then
    printf '\n%s\n' "In which rows the servers differ isn't known, for the rows with which the logs begin aren't: name a server that stands there by --opening."
    return 0
  fi
  : >"$work/rows"
  : >"$work/not_compared"
  while read -r server _; do rows_alone "$server"; done <"$folder/servers"
  [ ${#compared[@]} -lt 2 ] || unlike_rows >"$work/unlike"
  them=$(printf ', %s' "${compared[@]}")
  them=${them#, }
  printf '\n'
  if [ ${#compared[@]} -lt 2 ]; then
    echo "In which rows the servers differ isn't known:"
  elif [ -s "$work/unlike" ]; then
    echo "Rows in which $them differ, each by the opening's rows and its own log alone (columns count from 0):"
    cat "$work/unlike"
  else
    echo "By the opening's rows and its own log alone each of $them has the same rows."
  fi
  cat "$work/not_compared"
  sed -nE 's/^assume opening ([^ ]+) .*/\1/p' "$bundle" | while read -r server; do
    echo "  $server hasn't executed all of the opening: its rows here are those of a server that has."
  done
}
