#!/usr/bin/env bash
# The file layer does to a disk what crates/spec_disk speaks of: its system calls are noted, a letter for each (tests/file/actions.c),
# and held to the lists of actions `commit` and `recovery`, for which the promises are proved; with the process killed behind each of
# them, and each flush hidden once, which must be seen. The last line is 'N passed, M failed'.
#   LIB=path     the proved library; crates/station/out/libstation.a unless given
set -u
cd "$(dirname "$0")/.." || exit 2
passed=0
failed=0
base=${TMPDIR:-/dev/shm}
[ -w "$base" ] || base=/tmp
work=$(mktemp -d "$base/bhtf-disk.XXXXXX")
trap 'rm -rf "$work"' EXIT
site=$work/site

pass() { passed=$((passed + 1)); }
fail() { failed=$((failed + 1)); echo "FAILED: $1"; }

settings=()
[ -n "${LIB:-}" ] && settings+=(LIB="$(realpath "$LIB")")
[ -n "${LDLIBS:-}" ] && settings+=(LDLIBS="$LDLIBS")
if make -s -C host OUT="$work/host" "${settings[@]}" >"$work/out" 2>&1 &&
  make -s -C tests/file actions OUT="$work/programs" LIB="$work/host/libbhtf.a" LDLIBS="${LDLIBS:-}" >>"$work/out" 2>&1; then
  pass
else
  tail -n 5 "$work/out"
  echo "0 passed, 1 failed"
  exit 1
fi
bhtf=$work/host/bhtf
changes=$work/programs/changes

# The lists. `commit`: the old mark 0 flushed, content, flushed, mark, flushed; stretches, flushed, base and mark 0. A new journal begins
# with a base, and nothing of an old one is late; what the last change left late is flushed at the end. `recovery`: the journal flushed
# first.
first=bcjMjsibm
next=jcjMjsibm
end=j
recovery='js?ibmj' # bytes that were written already are not seen to be written again
dropped='i?'       # a journal without mark goes; the file is flushed before

# fresh: a file with one point, and no journal
fresh() {
  rm -f "$site" "$site.journal"
  "$bhtf" create "$site" --key-size 12 --slots 50 --size 8192 >/dev/null && "$bhtf" add "$site" CP-1 before >/dev/null ||
    { echo "no file can be made"; exit 1; }
}

# done_by COMMAND..: what it did, in $raw; and in $did without directories, and content written in parts as one
done_by() {
  rm -f "$work/noted"
  { ACTIONS_FILE=$site ACTIONS_NOTED=$work/noted LD_PRELOAD=$work/programs/actions.so "$@" >/dev/null 2>"$work/said"; } 2>/dev/null
  raw=$(cat "$work/noted" 2>/dev/null)
  did=$(printf %s "$raw" | tr -d d | tr -s cs)
}

# does NAME LIST COMMAND..
does() {
  done_by "${@:3}"
  if [[ $did =~ ^($2)$ ]]; then pass; else fail "$1: did $did and not $2: $(head -c 200 "$work/said")"; fi
}

# found: what a writer does first, by the mark that it finds
found() {
  if [ -e "$site.journal" ] && [ "$(tail -c 1 "$site.journal" | od -An -tx1)" = " a5" ]; then echo "$recovery"; else echo "$dropped"; fi
}

fresh
does "the command adds" "$first$end" "$bhtf" add "$site" CP-2 here
does "the command replaces" "$first$end" "$bhtf" add "$site" CP-2 "a longer text" --replace
does "the command deletes" "$first$end" "$bhtf" delete "$site" CP-2
does "the command compacts" "$first$end" "$bhtf" compact "$site"
does "the command reads" '' "$bhtf" get "$site" CP-1
does "one writer's three changes" "$first$next$next$end" "$changes" "$site" 3 three
three=$raw
echo "three changes: $three"

# The mark's flush is the third, behind the journal's and its name's: the mark is taken back, as `withdrawal` has it.
fresh
cp "$site" "$work/site.left"
ACTIONS_FAILS=3 does "a mark whose flush fails" "${first%%j*}jMmj" "$bhtf" add "$site" CP-2 here
if cmp -s "$site" "$work/site.left"; then pass; else fail "a change that was refused is there"; fi

# Each flush is seen: hidden, the list is another. Those of directories are not in it.
flushes=$(printf %s "$three" | tr -cd jid)
for ((k = 1; k <= ${#flushes}; k++)); do
  [ "${flushes:k-1:1}" = d ] && continue
  fresh
  ACTIONS_UNSEEN=$k done_by "$changes" "$site" 3 three
  if [[ $did =~ ^$first$next$next$end$ ]]; then fail "flush $k is not missed"; else pass; fi
done

# Killed behind each action, and the next writer; then that one killed behind each of its actions, and the one after it.
for ((k = 1; k <= ${#three}; k++)); do
  fresh
  ACTIONS_END=$k done_by "$changes" "$site" 3 three
  begins=$(found)
  cp "$site" "$work/site.left"
  cp "$site.journal" "$work/journal.left" 2>/dev/null || rm -f "$work/journal.left"
  does "killed behind ${three:0:k}" "$begins$first$end" "$changes" "$site" 1 after
  after=$raw
  [ "$begins" = "$recovery" ] || continue
  for ((n = 1; n <= 9 && n <= ${#after}; n++)); do
    cp "$work/site.left" "$site"
    cp "$work/journal.left" "$site.journal"
    ACTIONS_END=$n done_by "$changes" "$site" 1 after
    does "killed behind ${three:0:k}, then behind ${after:0:n}" "$(found)$first$end" "$changes" "$site" 1 last
  done
done

echo "$passed passed, $failed failed"
[ "$failed" -eq 0 ]
