#!/usr/bin/env bash
# Each must-fail edit says in its first lines what the wrong program does, at which fact of a proof it falls, and what it guards:
#     # a lookup that always answers 14
#     # falls at: proofs/lookup/Proof.antt returns
#     # guards: lookup
# Held to what the prover says of it: that fact must be among those that it refused in themselves, and not because a name is gone that its
# proof cites. (Goals and steps are named after what they are about, so where an edit changes an operand, other facts may lose a name.) `rt ci` prints of each edit the first fact that was refused, and refuses itself what is not well formed. An
# edit of which that is another fact is tried once more, in full, over the libraries that `rt ci` left.
# A fact that is false and a proof that no longer fits look alike to the prover, but for two reasons by which a fact is seen to be
# false: numbers at which it fails, and two sides that, computed, differ in a number.
# The last line is 'N passed, M failed'.
#   tests/falls.sh [FILE]          every edit, by what `rt ci` printed into FILE; target/ci, as .ci/run leaves it, unless given
#   tests/falls.sh EDIT..          these edits alone, in full, with all that the prover refused in them
#   tests/falls.sh --list [WORD]   the edits with their words and facts, as they are written; those that guard WORD alone
set -u
cd "$(dirname "$0")/.." || exit 2
. tests/tally.sh
. tests/edited.sh

# What edits guard: the calls, then what is said of many of them, then what they stand on. Each word has an edit.
words='create add delete lookup count walk check compact convert select at-epoch store-columns read-columns listed next-change journaled recover
  growth lists disk exports lister image hash search algorithm-r slots-read messages bytes'

# guarded EDIT: the words of its third line
guarded() { sed -n '3s/^# guards: //p' "$1"; }

# ---- one edit in full ----

# applied EDIT FOLDER: the edit, to the crate's files in FOLDER
applied() {
  local line file='' old=''
  while IFS= read -r line; do
    case $line in
      'file: '*) file=$2/${line#file: } ;;
      'old: '*) old=${line#old: } ;;
      new:*)
        line=${line#new:}
        edited "$old" "${line# }" "$file" >"$2/edited" || { echo "$1: what it replaces does not stand once in its file"; return 1; }
        mv "$2/edited" "$file"
        ;;
    esac
  done <"$1"
}

# tried EDIT FOLDER: what the prover says of the edited crate, in the file said of FOLDER
tried() {
  local crate=${1#crates/} part status
  crate=${crate%%/*}
  for part in src specs proofs; do [ ! -d "crates/$crate/$part" ] || cp -r "crates/$crate/$part" "$2"; done
  applied "$1" "$2" || return 1
  .ci/rattle check "$crate" "$2" >"$2/said" 2>&1
  status=$?
  case $status in
    0) echo "$1: the crate is proved with it"; return 1 ;;
    4) echo "$1: $crate itself is not proved: $(grep -m 1 error "$2/said")"; return 1 ;;
  esac
  grep -q '^logic=not-proved' "$2/said" || { echo "$1: the prover gave no verdict: $(tail -n 1 "$2/said")"; return 1; }
}

# refused LOG: what the prover refused in itself, a line each: file, fact, reason. What only rests on it is left out.
refused() {
  awk '
    function tell() { if (fact != "") print fact; fact = "" }
    /^  / { if (fact != "") fact = fact $0; next }
    { tell() }
    match($0, /^[^ ]*proofs\/[^ :]*:[0-9]+:[0-9]+: error: `[^`]*`: /) {
      split($0, part, ":")
      sub(/^.*proofs\//, "proofs/", part[1])
      reason = substr($0, RLENGTH + 1)
      name = substr($0, 1, RLENGTH)
      sub(/`: $/, "", name)
      sub(/.*`/, "", name)
      fact = part[1] " " name " " reason
      next
    }
    match($0, /^fn [^ ]*: no proof: .*proofs\/[^ ;]*; `search` did not prove /) {
      file = substr($0, 1, RLENGTH)
      sub(/;.*/, "", file)
      sub(/^.*proofs\//, "proofs/", file)
      n = split(substr($0, RLENGTH), part, "`")
      for (i = 2; i < n; i += 2) print file, part[i], "no proof is found"
    }
    END { tell() }' "$1" | grep -v 'was not admitted'
}

# The prover's words where the edited definition or code is none: a name that is not in scope, a type that does not fit.
ill='^[^ ]*(specs|src)/[^ :]*:[0-9]+:[0-9]+: error|^[^ ]*error\[[a-z-]+\]'

# The prover's words where a proof names a step that the code no longer has.
shape='^[^ ]+ [^ ]+ .*(has no `|has no field|`[^`]*` is not in scope)'

# The prover's words where a fact is seen to be false.
bare='([0-9]+|true|false)' number='`([0-9]+|true|false)`'
seen="(the goal fails, at |computed as far as they go, the two types (differ only|first differ) where one has $number \\(expected\\) and the other has $number \\(found\\)"
seen+="|the two types are .Path [^ ]+ $bare $bare. \\(expected\\) and .Path [^ ]+ $bare $bare. \\(found\\))"

# told REASON: how a fact was refused
told() {
  if grep -qE "$seen" <<<"$1"; then
    echo false
  elif grep -qE 'the two types (differ|first differ|are)|^expected type' <<<"$1"; then
    echo differs
  else
    echo unproved
  fi
}

# of_function: of lines FILE FACT, where FILE is one of the files of a function's proof, its folder in the place of it, for a goal has one name there
of_function() { sed -E 's#/(Proof|Answers|Invariants)\.antt # #'; }

# in_full EDIT FACT: tries the edit, and holds what is refused to the fact
in_full() {
  local edit=$1 room own file name reason status=0
  room=$(mktemp -d) || return 1
  if tried "$edit" "$room"; then
    own=$(refused "$room/said")
    [ -z "$shown" ] || while read -r file name reason; do echo "$file $name $(told "$reason"): $reason"; done <<<"$own" | cut -c1-300
    if grep -qE "$ill" "$room/said"; then
      echo "$edit is not well formed: $(grep -m 1 -E "$ill" "$room/said" | cut -c1-200)"
      status=1
    elif ! cut -d' ' -f1,2 <<<"$own" | of_function | grep -qxF -- "$(of_function <<<"$2")"; then
      echo "$edit does not fall at $2, but at: $(cut -d' ' -f1,2 <<<"$own" | uniq | tr '\n' ' ')"
      status=1
    elif ! grep -vE "$shape" <<<"$own" | cut -d' ' -f1,2 | of_function | grep -qxF -- "$(of_function <<<"$2")"; then
      echo "$edit falls at $2 only because a name is gone: $(grep -m 1 -E "$shape" <<<"$own" | cut -c1-200)"
      status=1
    fi
  else
    status=1
  fi
  rm -rf "$room"
  return $status
}

# ---- what rt ci printed of it ----

# function_at FILE LINE: of a .rt file, the function that begins or stands there, with its attributes, and without them
function_at() {
  awk -v line="$2" '
    /^ *#\[/ { if (!above) above = FNR; next }
    match($0, /(^| )fn [a-z0-9_]+/) {
      if ((above ? above : FNR) <= line) { name = substr($0, RSTART, RLENGTH); sub(/.*fn /, "", name) }
    }
    { above = 0 }
    END { print name }' "$1"
}

# printed EDIT: of the edit, what rt ci printed
printed() {
  local label=${1#crates/}
  label=${label/must-fail\//}
  sed -n "s|^rt: must-fail $label: ||p" "$log" | head -n 1
}

# first EDIT: the fact that the line names, file and name; nothing where it names none
first() {
  local says fact file line name
  says=$(printed "$1" | sed -E 's/^refused, as it must be(: | \()//')
  fact=$(sed -nE 's/^(.*: )?(note: )?(\.\/)?(proofs\/[^ :]*):[0-9]+:[0-9]+: error: `([^`]*)`: .*/\4 \5/p' <<<"$says")
  if [ -n "$fact" ]; then echo "$fact"; return; fi
  # a function for which rattle finds the proof itself: a place in the code, and the goal in the last parentheses
  read -r file line name < <(sed -nE 's/^note: (src\/[^ :]*):([0-9]+):[0-9]+: [^;]*\(`([^`]*)`\).*/\1 \2 \3/p' <<<"$says")
  [ -n "$name" ] || return
  fact=${file#src/}
  fact=${fact%.rt}/$(function_at "${1%/must-fail/*}/$file" "$line")
  echo "proofs/${fact#lib/}/Answers.antt $name"
}

in_full_count=0

fall() {
  local edit=$1 says fact line at
  says=$(sed -n '1s/^# //p' "$edit")
  fact=$(sed -n '2s/^# falls at: //p' "$edit")
  if [ -z "$says" ] || [ -z "$fact" ]; then
    echo "$edit does not say what is wrong and at which fact it falls"
    return 1
  fi
  if [ -z "$(guarded "$edit")" ] || grep -qvxF "$(tr -s ' ' '\n' <<<"$words")" <<<"$(guarded "$edit" | tr ' ' '\n')"; then
    echo "$edit does not say in its third line which of these it guards: $(echo $words)"
    return 1
  fi
  if [ -n "$shown" ]; then
    in_full "$edit" "$fact"
    return
  fi
  line=$(printed "$edit")
  case $line in
    '') echo "rt ci says nothing of $edit"; return 1 ;;
    *'only because a proof file names what the edit took away'*) echo "$edit changes the code's shape: $line"; return 1 ;;
    'refused, as it must be'*) ;;
    *) echo "$edit: $line"; return 1 ;;
  esac
  at=$(first "$edit")
  if [ "$(of_function <<<"$at")" = "$(of_function <<<"$fact")" ]; then return 0; fi
  in_full_count=$((in_full_count + 1))
  in_full "$edit" "$fact"
}

edits=(crates/*/must-fail/*.edit)
if [ "${1:-}" = --list ]; then
  if [ -n "${2:-}" ] && ! grep -qxF -- "$2" <<<"$(tr -s " " "\n" <<<"$words")"; then
    echo "nothing is guarded under that name; there are: $(echo $words)" >&2
    exit 2
  fi
  for edit in "${edits[@]}"; do
    [ -z "${2:-}" ] || grep -qxF -- "$2" <<<"$(guarded "$edit" | tr ' ' '\n')" || continue
    echo "$edit: $(sed -n '1s/^# //p' "$edit"); falls at $(sed -n '2s/^# falls at: //p' "$edit")"
  done
  exit
fi
shown='' log=target/ci
case ${1:-} in
  '') ;;
  *.edit) shown=yes edits=("$@") ;;
  *) log=$1 ;;
esac
[ -n "$shown" ] || [ -f "$log" ] || { echo "$log is not there: .ci/run leaves it; rt ci >$log does too" >&2; exit 2; }
for edit in "${edits[@]}"; do test_that "$edit" fall "$edit"; done
# each word has an edit
guards() { grep -qE "^# guards: (.* )?$1( |\$)" crates/*/must-fail/*.edit; }
if [ -z "$shown" ]; then
  for word in $words; do test_that "an edit guards $word" guards "$word"; done
  echo "of these $(wc -w <<<"$words") assertions"
fi
[ -n "$shown" ] || echo "$in_full_count of ${#edits[@]} were tried in full"
tally
