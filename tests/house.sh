#!/usr/bin/env bash
# House rules that a script can see. Of the .rt and .antt files:
#     columns   no line but an import has more than 120 columns
#     chains    no step of a proof is named by eight `.before` or more
#     head      the first line is a comment; of a Lib.antt only where it lists more than three modules
# tests/house-allowed.txt has what was there before the rule: rule, number, file. It only shrinks: a file that has more than its line
# says fails, and one that has fewer fails until the line is made anew.
#   tests/house.sh --list   the list as the files are
# And of crates.txt that each crate's name begins with its layer, and that a line says what it holds.
set -u
export LC_ALL=C.UTF-8
cd "$(dirname "$0")/.." || exit 2
allowed=tests/house-allowed.txt

# times RULE: of a list of files, how often each stands there
times() { sort | uniq -c | awk -v rule="$1" '{ print rule, $1, $2 }'; }

found() {
  grep -rE --exclude-dir=out --include='*.rt' --include='*.antt' '^.{121}' crates | grep -vE '^[^:]*: *(pub )?(ghost )?use ' | cut -d: -f1 | times columns
  # a chain is written tight, c.before.before; one with spaces may go on in the next line
  find crates -name out -prune -o -name '*.antt' -print | sort | xargs awk '
    function ended() {
      gsub(/ +/, " ", text)
      n = gsub(chain, "", text)
      if (n) print "chains", n, file
    }
    BEGIN { chain = "( ?\\.before)+"; for (i = 1; i < 8; i++) chain = " ?\\.before" chain }
    FNR == 1 { if (file) ended(); file = FILENAME; text = "" }
    { text = text " " $0 }
    END { ended() }'
  find crates -name out -prune -o '(' -name '*.rt' -o -name '*.antt' ')' -print | sort | xargs awk '
    FNR == 1 { bare = $0 !~ /^(--|\/\/)/; modules = 0 }
    /^pub mod / { modules++ }
    bare && (FILENAME ~ /\/Lib\.antt$/ ? modules == 4 : FNR == 1) { print "head", 1, FILENAME }'
}

if [ "${1:-}" = --list ]; then
  found
  exit
fi
[ -f "$allowed" ] || { echo "$allowed is missing"; exit 1; }
bad=0

# where files and list differ: rule, number of today, number allowed, file
while read -r rule is was file; do
  bad=1
  if [ "$is" -gt "$was" ]; then
    echo "$file: $rule $is, allowed $was"
  else
    echo "$file: $rule $is, and $allowed still allows $was: write it anew with tests/house.sh --list"
  fi
done < <(found | awk -v allowed="$allowed" '
  FILENAME == allowed { was[$1 " " $3] = $2; next }
  { is[$1 " " $3] = $2; both[$1 " " $3] }
  END {
    for (k in was) both[k]
    for (k in both) if (is[k] + 0 != was[k] + 0) { split(k, p, " "); print p[1], is[k] + 0, was[k] + 0, p[2] }
  }' "$allowed" - | sort -k4)

# crates.txt: each crate's name begins with a layer that a rule of the file names, and what it holds stands on the line above it
while read -r line; do
  bad=1
  echo "crates.txt: $line"
done < <(awk '
  /^# ---- / { split($0, rule, ":"); sub(/^# ---- /, "", rule[1]); count = split(rule[1], layers, ", "); above = 0; next }
  /^# / { above = 1; next }
  /^[a-z_]+( staticlib)?:/ {
    name = $0
    sub(/[ :].*/, "", name)
    fits = 0
    for (i = 1; i <= count; i++) if (index(name, layers[i]) == 1) fits = 1
    if (!fits) print name " does not begin with its layer"
    if (!above) print name " has no line that says what it holds"
  }
  { above = 0 }' crates.txt)

[ "$bad" -eq 0 ] || exit 1
awk '{ n[$1] += $2 } END { printf "still allowed: %d long lines, %d chains, %d without a head\n", n["columns"], n["chains"], n["head"] }' "$allowed"
