#!/usr/bin/env bash
# A larger table in the place of a file's: the real command and the Python module, built with the sanitizers. The last line is
# 'N passed, M failed', and the status 0 only if M is 0.
#   LIB=path     the library, from the repository's root; crates/station/out/libstation.a unless given
#   STANDIN=yes  the plain C of tests/reference in its place
#   SEED=number  of the random names and texts
set -u
cd "$(dirname "$0")/.." || exit 2
. tests/tally.sh
. tests/sanitized.sh

work=$(mktemp -d)
trap 'rm -rf "$work"' EXIT
sanitized "$work/reports"
seed=${SEED:-20261118}
echo "seed $seed"

settings=(OUT="$work/bin")
[ -n "${LIB:-}" ] && settings+=(LIB="$(realpath "$LIB")")
[ -n "${STANDIN:-}" ] && settings+=(STANDIN="$STANDIN")
quietly() { "$@" >"$work/said" 2>&1 || { tail -n 5 "$work/said"; return 1; }; }
test_that "the command builds with sanitizers" quietly make -s -C host "${settings[@]}" OUT="$work/careful" SANITIZE=yes "$work/careful/bhtf"
PATH=$work/careful:$PATH
cd "$work" || exit 2

# gives STATUS PATTERN COMMAND..: status, and the pattern in what is said
gives() {
  local status=$1 pattern=$2 got
  shift 2
  "$@" >said 2>&1
  got=$?
  [ "$got" -eq "$status" ] && grep -aqE -- "$pattern" said && return 0
  echo "  status $got: $(head -c 400 said | tr -d '\0')"
  return 1
}
equal() { [ "$1" = "$2" ] && return 0; echo "  expected '$1', got '$2'"; return 1; }

# points FILE: what it holds, without what a table's size changes
points() { bhtf export "$1" | sort; }

# ---- a full file ----

test_that "a small file" bhtf create site -k 8 -s 4 -q
for n in 1 2 3; do test_that "point $n" bhtf add site "CP-$n" -E "448210$n.5" -N 5351800 -H 51$n.25 --allow-near -q; done
test_that "an empty note" bhtf add site CP-4 '' -q
test_that "is full, and the words name the command" gives 1 'refused \(10\).*bhtf grow with --slots' bhtf add site CP-5 x
points site >before
cp site old
test_that "no number of slots" gives 2 'how many slots' bhtf grow site
test_that "no larger table" gives 1 'refused \(21\): its table has 4 slots' bhtf grow site --slots 4
test_that "no room" gives 1 'refused \(21\): with 500 slots its points need a file of 12288 bytes' bhtf grow site --slots 500 --size 8192
test_that "a length that no file has" gives 1 'refused \(1\)' bhtf grow site --slots 9 --size 5000
test_that "too many slots" gives 1 'refused \(3\)' bhtf grow site --slots 1048577
test_that "refused ones change no byte" cmp site old
test_that "grows" gives 0 '^site has 9 slots, 4 before: 4 points, 44 % of them taken' bhtf grow site --slots 9
test_that "with the same points" equal "$(cat before)" "$(points site)"
test_that "an empty note stays one" equal "''" "'$(bhtf get site CP-4)'"
test_that "is sound" gives 0 'sound' bhtf check site
test_that "takes more" bhtf add site CP-5 x -q
test_that "no journal and no other file is left" equal "before old said site" "$(ls | grep -v reports | grep -v careful | grep -v bin | paste -sd' ')"

# ---- withdrawn and without a text; dead bytes go ----

test_that "a file with dead bytes" bash -c 'bhtf create b -k 8 -s 20 -q && bhtf add b A aaaa -q && bhtf add b B bb -q &&
  bhtf withdraw b B -q && bhtf add b C --no-text -q && bhtf add b D dd -q && bhtf add b D dddddd -r -q --drop text'
test_that "grows" bhtf grow b --slots 21 -q
test_that "without them" gives 0 '^data: 12288 bytes, 18 used' bhtf stat b
test_that "a point that was withdrawn has no text" gives 1 'the point has no text' bhtf get b B

# ---- damage ----

cp site bad
printf '\x07' | dd of=bad bs=1 seek=23 conv=notrunc status=none
cp bad bad.old
test_that "a file that is not sound" gives 1 'refused \(15\)' bhtf grow bad --slots 100
test_that "stays" cmp bad bad.old

# ---- version 2.0.0 ----

test_that "a file of 2.0.0" bash -c 'bhtf create w --format 2.0.0 -k 8 -s 5 -q && bhtf add w A text -q && bhtf add w B "" -q'
points w >before
test_that "grows" bhtf grow w --slots 50 -q
test_that "and keeps its version" gives 0 '2\.0\.0' bhtf stat w
test_that "and its points" equal "$(cat before)" "$(points w)"

# ---- many points, beside a dump that is loaded ----

test_that "2,000 points" bash -c "python3 - $seed >many.csv <<'END'
import random, sys
r = random.Random(int(sys.argv[1]))
print('name,easting,northing,height,note')
for i in range(2000):
    print('P%d,%.3f,%.3f,%.3f,%s' % (i, r.uniform(4e6, 4.1e6), r.uniform(5e6, 5.1e6), r.uniform(0, 900), 'n' * r.randrange(40)))
END
bhtf create many -k 8 -s 2000 -q && bhtf import many many.csv -q --allow-near --allow-far"
points many >before
test_that "grow" bhtf grow many --slots 40000 -q
test_that "and are the same" cmp before <(points many)
test_that "each is found" equal "" "$(for i in $(seq 0 40 1999); do bhtf get many "P$i" >/dev/null || echo "P$i"; done)"

# ---- readers and cuts ----

# a reader that has the file open goes on with the old one, and finds the new one when it looks again
test_that "killed at any time, the file is the old one or the new one" bash -c '
  bhtf create k -k 8 -s 300 -q; for i in $(seq 60); do echo "add P$i $i"; done | bhtf batch k -q
  sum=$(bhtf export k | sort | sha256sum)
  for t in 1 2 3 4 5 6 7 8 9 10; do
    cp k kk
    bhtf grow kk --slots 5000 -q & pid=$!
    sleep 0.0$t; kill -KILL $pid 2>/dev/null; wait $pid 2>/dev/null
    [ "$(bhtf export kk | sort | sha256sum)" = "$sum" ] || { echo "lost at $t"; exit 1; }
    bhtf check kk -q || exit 1
    rm -f kk kk.*
  done'

test_that "no report of a sanitizer" unreported "$work/reports"
tally
