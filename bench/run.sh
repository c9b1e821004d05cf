#!/usr/bin/env bash
# The benchmark: the library, plain C, tuned C and four other engines, in turns.
#
#   bench/run.sh             writes docs/PERFORMANCE.md, docs/performance.svg
#                            and docs/slots-read.svg
#   bench/run.sh --quick     a small run as a test; writes to target/bench only
#     --seed S               of names, messages and orders (default 1)
#     --rounds R             of three samples each; other engines take part
#                            in the first three
#     --no-counts            no instructions and branches, which need valgrind
#     --large                instead, every call at 1,048,576 slots and some
#                            500 MB of messages beside the two C programs, in
#                            3 GiB of memory, compaction and conversion
#                            there and at 65,536 slots, long texts, readings
#                            by column, names in ranges, epochs, and growth;
#                            writes bench/large.md, bench/compact.md,
#                            bench/convert.md, bench/columns.md,
#                            bench/ranges.md, bench/epochs.md,
#                            bench/grow.md, bench/listed.md and those
#                            sections of docs/PERFORMANCE.md
#     --self                 plain C in the library's place, to test the
#                            benchmark; writes to target/bench only
#     LIB=path               of the library (default: rt lib in crates/station)
#
# The last line is 'N passed, M failed': comparisons of images, answers and
# contents. Exit status 1 if one failed or a subject did.
set -u

usage() {
  sed -n '2,27s/^# \{0,1\}//p' "$0"
  exit 2
}

quick=0 self=0 counts=1 large=0 seed=1 rounds= given="bench/run.sh"
LIB=${LIB:-}
while [ $# -gt 0 ]; do
  case $1 in
  --quick) quick=1 ;;
  --self) self=1 ;;
  --no-counts) counts=0 ;;
  --large) large=1 ;;
  --seed) shift; seed=${1:-} ;;
  --rounds) shift; rounds=${1:-} ;;
  LIB=*) LIB=${1#LIB=} ;;
  *) usage ;;
  esac
  shift
done
case $seed in '' | *[!0-9]*) usage ;; esac
[ "$quick" = 1 ] && given="$given --quick"
[ "$self" = 1 ] && given="$given --self"
[ "$counts" = 1 ] || given="$given --no-counts"
given="$given --seed $seed"
[ -n "$rounds" ] && given="$given --rounds $rounds"
: "${rounds:=$([ "$quick" = 1 ] && echo 1 || echo 5)}"
case $rounds in '' | *[!0-9]* | 0) usage ;; esac

[ -n "$LIB" ] && LIB=$(realpath -- "$LIB")
cd "$(dirname "$0")/.." || exit 2
bin=target/bench

# ---- what is needed ----

find_library() {
  if [ "$self" = 1 ]; then
    make -s -C bench standin || return
    LIB=$PWD/$bin/libstandin.a
  elif [ -z "$LIB" ]; then
    LIB=$PWD/crates/station/out/libstation.a
    [ -f "$LIB" ] || (cd crates/station && rt lib)
  fi
  [ -f "$LIB" ]
}

# All on one core, so that all meet the same neighbours.
pin=()
core=$(taskset -pc $$ 2>/dev/null | sed 's/.*[ ,-]//')
[ -n "$core" ] && pin=(taskset -c "$core")

# put_section FILE: the section in the page, in place of what stood under its heading, else before the other engines.
put_section() {
  awk -v section="$1" '
    BEGIN { getline heading < section; close(section); there = 0 }
    function put() { while ((getline line < section) > 0) print line; print ""; there = 1 }
    /^## / { old = $0 == heading; if (old || ($0 ~ /^## Other engines/ && !there)) put() }
    !old' docs/PERFORMANCE.md >"$bin/page.md" && cp "$bin/page.md" docs/PERFORMANCE.md
}

# once NAME: a second table of some sections, instructions of one call
once() {
  local call size
  [ "$counts" = 1 ] || return 0
  case $1 in
  columns) set -- columns "W | records" store_columns,read_columns 1,4,12,16,64 1000 ;;
  ranges) set -- ranges "K | N" select 4,8,16,32 65536 ;;
  epochs) set -- epochs "K | N" at_epoch 8,16,32 65536 ;;
  *) return 0 ;;
  esac
  printf '\nInstructions of one call, counted by callgrind inside it:\n\n| call | %s | library / C | plain | tuned | library |\n' "$2"
  echo '|:--|--:|--:|--:|--:|--:|--:|'
  for call in ${3//,/ }; do
    for size in ${4//,/ }; do bench/once.sh "$1" "$call" "$size" "$5" || return 1; done
  done
}

# measure NAME ROUNDS: runs a program of the largest size; its lines are the table of a section.
measure() {
  "${pin[@]}" "$bin/$1" "$2" >"$bin/$1.txt" || { cat "$bin/$1.txt"; exit 1; }
  cat "$bin/$1.txt"
  [ "$self" = 1 ] && return
  { cat "bench/$1-head.md"; sed '$d' "$bin/$1.txt"; once "$1"; } >"bench/$1.md"
  put_section "bench/$1.md"
}

# grow_engines SLOTS: lines of LMDB and tdb while they grow, in a file on tmpfs if there is one
grow_engines() {
  local place engine status=0
  place=$(mktemp -d -p /dev/shm 2>/dev/null || mktemp -d) || return 1
  for engine in LMDB tdb; do
    "${pin[@]}" "$bin/grow-${engine,,}" "$engine" "$place/file" "$1" >"$place/said" || status=1
    sed '/ passed, 0 failed$/d' "$place/said"
  done
  rm -rf "$place"
  return "$status"
}

# measure_growth ROUNDS: growth and the engines in one table
measure_growth() {
  { "${pin[@]}" "$bin/grow" "$1" 1048576 | sed '$d'; grow_engines 1048576; } >"$bin/grow.txt"
  cat "$bin/grow.txt"
  ! grep -q FAILED "$bin/grow.txt" || exit 1
  [ "$self" = 1 ] && return
  cat bench/grow-head.md "$bin/grow.txt" >bench/grow.md
  put_section bench/grow.md
}

# Every call at the largest size, compaction, conversion, columns, ranges, epochs, growth, and the listed forms.
run_large() {
  local program programs=(large compact convert columns ranges epochs)
  .ci/install gcc make util-linux liblmdb-dev libtdb-dev $([ "$counts" = 1 ] && echo valgrind) && find_library &&
    make -s -C bench LIB="$LIB" "${programs[@]/#/../$bin/}" "../$bin/listed" "../$bin"/grow{,-lmdb,-tdb} || exit 2
  for program in "${programs[@]}"; do measure "$program" "$rounds"; done
  measure_growth 3
  [ "$self" = 1 ] || measure listed "$rounds"
  exit
}

[ "$large" = 1 ] && run_large

[ "$quick" = 1 ] && counts=0
tools=()
[ "$counts" = 1 ] && tools=(valgrind)
.ci/install gcc g++ make util-linux "${tools[@]}" libgdbm-dev libtdb-dev liblmdb-dev libkyotocabinet-dev || exit 2
find_library || { echo "no library"; exit 2; }
make -s -C bench LIB="$LIB" || exit 2

work=$(mktemp -d) || exit 2
files=
trap 'rm -rf "$work" ${files:+"$files"}' EXIT
if [ "$(stat -f -c %T /dev/shm 2>/dev/null)" = tmpfs ] && files=$(mktemp -d -p /dev/shm bench.XXXXXX); then
  files_say="All files are on tmpfs."
else
  files=$work/files
  mkdir "$files"
  files_say="All files are in a temporary directory, as there was no tmpfs."
fi
echo "seed $seed; $files_say"

# ---- running ----

limit=$([ "$quick" = 1 ] && echo 45 || echo 900) # seconds for a run
fewer=$([ "$quick" = 1 ] && echo 4 || echo 1)
passed=0
failed=0
results=$work/results
: >"$results"

fail() {
  failed=$((failed + 1))
  echo "FAILED: $*"
}

finish() {
  echo "$passed passed, $failed failed"
  [ "$failed" -eq 0 ] && [ "$passed" -gt 0 ]
  exit
}

# compare_images WHAT: those of the library and of tuned C with plain's, byte for byte.
compare_images() {
  local image subject
  for image in "$work"/out/plain.images/*; do
    for subject in library tuned; do
      if cmp -s "$image" "$work/out/$subject.images/${image##*/}"; then
        passed=$((passed + 1))
      else
        fail "$1: $subject's image differs after ${image##*/}"
      fi
    done
  done
}

# turned BY WORD..: the words, beginning with another one
turned() {
  local by=$1
  shift
  by=$((by % $#))
  echo "${@:by+1}" "${@:1:by}"
}

# run GROUP ROUND K N SUBJECTS PLAN. Who is the first to work in a sample changes from round to round.
run() {
  local what="$1, round $2, K = $3, N = $4" subject images=()
  [ "$1" = images ] && images=(--images)
  rm -rf "$work/out"
  mkdir "$work/out"
  # The words of subjects and plan are meant to be split.
  # shellcheck disable=SC2086
  timeout "$limit" "${pin[@]}" "$bin/turns" "$bin" "$files" "$work/out" $(turned "$2" $5) -- "${images[@]}" --seed "$seed" --fewer "$fewer" --key "$3" --slots "$4" $6
  case $? in
  0) ;;
  124) fail "$what: not done in $limit s"; finish ;;
  *) fail "$what: a subject failed" ;;
  esac
  rm -f "$files"/*
  for subject in $5; do
    sed "s/^/$1 $2 $3 $4 $subject /" "$work/out/$subject" >>"$results"
  done
  [ "$1" = images ] && compare_images "$what"
  echo "done: $what ($SECONDS s)"
}

image_plan="create build:50 hit miss replace renew append swap walk check fill:90 hit miss swap fill:100 hit miss swap"
short_plan="create build:50 hit miss replace swap walk check"
engine_plan="build:50 hit miss replace renew swap walk fill:90 swap fill:100 swap"
load_plan=
for load in 10 20 30 40 50 60 70 80 90 100; do
  load_plan="$load_plan fill:$load hit miss"
done
engines="library gdbm tdb lmdb lmdb-run kyoto"

run_round() {
  local k n
  for n in 5507 65521; do
    for k in 4 8 16 32; do
      run images "$1" $k $n "plain tuned library again" "$image_plan"
      [ "$1" -gt 3 ] || run engines "$1" $k $n "$engines" "$engine_plan"
    done
  done
  [ "$1" -gt 3 ] && return
  run by-load "$1" 16 65521 "tuned library" "$load_plan"
  for n in 1000 2000 4000 8000 16000 32000 65536; do
    run by-slots "$1" 16 $n "tuned library" "fill:50 hit miss"
  done
}

run_quick_round() {
  local k n
  for k in 4 8 16 32; do
    run images "$1" $k 5507 "plain tuned library again" "$image_plan"
  done
  run images "$1" 16 65521 "plain tuned library again" "$short_plan"
  run engines "$1" 16 5507 "$engines" "$engine_plan"
  run by-load "$1" 16 5507 "tuned library" "$load_plan"
  for n in 1000 4000 16000; do
    run by-slots "$1" 16 $n "tuned library" "fill:50 hit miss"
  done
}

for round in $(seq "$rounds"); do
  if [ "$quick" = 1 ]; then run_quick_round "$round"; else run_round "$round"; fi
done

if [ "$counts" = 1 ]; then
  bench/count.sh 4,8,16,32 5507,65521 plain,tuned,library "$seed" >>"$results" || fail "the instructions were not counted"
  echo "done: counts ($SECONDS s)"
fi

# The check beside tuned C with a map on the heap, on small and large files.
# Ratios and the target of each are shown, and nothing is counted: on a busy machine they are no test.
run_check() {
  "${pin[@]}" "$bin/check" 15 >"$bin/check.txt" || echo "a ratio of the check lies above its target"
  sed '$d' "$bin/check.txt"
}
[ "$self" = 1 ] || [ "$quick" = 1 ] || run_check

# compared PROGRAM SAMPLES..: a program that compares answers and images by itself; its ratios are only shown
compared() {
  local out=$bin/$1.txt
  if "${pin[@]}" "$bin/$1" "${@:2}" >"$out"; then
    passed=$((passed + 1))
  else
    fail "$1: an answer or an image differs"
  fi
  sed '$d' "$out"
}
compared compact "$([ "$quick" = 1 ] && echo 1 || echo 7)" 65536
compared convert "$([ "$quick" = 1 ] && echo 1 || echo 7)" 65536
compared columns "$([ "$quick" = 1 ] && echo 1 || echo 7)" "$([ "$quick" = 1 ] && echo 1000 || echo 1000000)"
compared ranges "$([ "$quick" = 1 ] && echo 1 || echo 7)" "$([ "$quick" = 1 ] && echo 5507 || echo 1048576)"
compared epochs "$([ "$quick" = 1 ] && echo 1 || echo 7)" "$([ "$quick" = 1 ] && echo 5507 || echo 1048576)"
compared grow 1 "$([ "$quick" = 1 ] && echo 5507 || echo 65536)"
grow_engines "$([ "$quick" = 1 ] && echo 5507 || echo 65536)" || fail "growth of another engine"
[ "$self" = 1 ] || compared listed "$([ "$quick" = 1 ] && echo 1 || echo 15)"

# How many slots lookups read, by load: counted, so that one run is enough.
slots_key=16 slots_tables=$([ "$quick" = 1 ] && echo 2 || echo 20)
slots_of=$([ "$quick" = 1 ] && echo 5507 || echo 65521)
if "$bin/slots" "$seed" "$slots_key" "$slots_of" "$slots_tables" >"$work/slots"; then
  passed=$((passed + 1))
else
  fail "slots read: a lookup answered wrongly, or read too many"
fi
# slots_read FORM: a page or a picture
slots_read() {
  awk -v form="$1" -v tables="$slots_tables" -v key_size="$slots_key" -f bench/svg.awk -f bench/slots.awk "$work/slots"
}

read -r same different < <(awk -f bench/compare.awk "$results") || fail "the answers were not compared"
passed=$((passed + same))
failed=$((failed + different))

# ---- the page ----

version() {
  dpkg-query -W -f '${source:Upstream-Version}' "$1"
}

# A failed run leaves the published page alone.
pages=docs
if [ "$quick" = 1 ] || [ "$self" = 1 ] || [ "$failed" -gt 0 ]; then pages=$bin; fi
mkdir -p "$pages"
cp "$results" "$bin/results"
slots_read page >"$work/slots.md" || fail "the slots read"
awk -v rounds="$rounds" -v head=bench/head.md -v large=bench/large.md -v compact=bench/compact.md -v convert=bench/convert.md -v columns=bench/columns.md -v ranges=bench/ranges.md -v epochs=bench/epochs.md -v grow=bench/grow.md -v listed=bench/listed.md -v disk=bench/files.md -v tried=bench/tried.md -v slots="$work/slots.md" -v command="$given" -v seed="$seed" -v files="$files_say" \
  -v machine="Machine: $(nproc) cores, $(uname -m), gcc $(gcc -dumpfullversion)" \
  -v engines="Engines: gdbm $(version libgdbm-dev), tdb $(version libtdb-dev), LMDB $(version liblmdb-dev), Kyoto Cabinet $(version libkyotocabinet-dev)" \
  -f bench/table.awk "$results" >"$pages/PERFORMANCE.md" || fail "the page"
awk -f bench/svg.awk -f bench/plot.awk "$results" >"$pages/performance.svg" || fail "the plot"
slots_read picture >"$pages/slots-read.svg" || fail "the plot of slots read"
grep -E '^(Library|Noise|Instructions|Branches)' "$pages/PERFORMANCE.md"
echo "written: $pages/PERFORMANCE.md, $pages/performance.svg, $pages/slots-read.svg"
finish
