#!/usr/bin/env bash
# The file layer: its calls, writers and readers at once, changes cut by KILL and by the power, the library as others use it, disks
# that are full or must not be written, and seeded faults, each of which must be found. A line for each test; the last line is
# 'N passed, M failed', and the status 0 only if M is 0.
#   tests/file.sh [--seed N] [--thorough]   thorough: thousands of random cuts, a minute of readers and writers, an hour of inputs
#                                           that nobody means
#   LIB=path     the proved library, from the repository's root; crates/station/out/libstation.a unless given
#   LDLIBS=..    if it needs more
set -u
cd "$(dirname "$0")/.." || exit 2
root=$PWD

seed=$RANDOM
random=20 states=6 seconds=5 fuzzed=56
while [ $# -gt 0 ]; do
  case $1 in
    --seed) seed=$2; shift ;;
    --thorough) random=600 states=60 seconds=60 fuzzed=3600 ;;
    *) echo "unknown: $1" >&2; exit 2 ;;
  esac
  shift
done
echo "seed $seed"

passed=0
failed=0
found=0 # faults
# In memory where that can be: nothing here hangs on what the disk does.
base=${TMPDIR:-/dev/shm}
[ -w "$base" ] || base=/tmp
work=$(mktemp -d "$base/bhtf-file.XXXXXX")
mounted=
clean_up() {
  [ -n "$mounted" ] && umount "$mounted" 2>/dev/null
  rm -rf "$work"
}
trap clean_up EXIT

pass() { passed=$((passed + 1)); echo "ok: $1"; }
fail() { failed=$((failed + 1)); echo "FAILED: $1"; [ -z "${2:-}" ] || echo "  $2"; }

# holds NAME COMMAND..: passes if the command does
holds() {
  local name=$1
  shift
  if "$@" >"$work/out" 2>&1; then pass "$name"; else fail "$name" "$(tail -n 3 "$work/out")"; fi
}

# gives NAME STATUS PATTERN COMMAND..: status, and the pattern in what is printed
gives() {
  local name=$1 status=$2 pattern=$3 got
  shift 3
  "$@" >"$work/out" 2>&1
  got=$?
  if [ "$got" -eq "$status" ] && grep -aqE -- "$pattern" "$work/out"; then
    pass "$name"
  else
    fail "$name" "status $got: $(head -c 300 "$work/out" | tr -d '\0')"
  fi
}

# counted NAME COMMAND..: a program whose last line is 'N passed, M failed', with N above 0, and status 0 only where M is 0
counted() {
  local name=$1 status last p f
  shift
  "$@" 2>&1 | tee "$work/out"
  status=${PIPESTATUS[0]}
  last=$(tail -n 1 "$work/out" | grep -E '^[1-9][0-9]* passed, [0-9]+ failed$') || { fail "$name ended early"; return; }
  p=${last%% *} f=${last##*, }
  f=${f%% *}
  passed=$((passed + p))
  failed=$((failed + f))
  [ "$status" -eq 0 ] || [ "$f" -gt 0 ] || fail "$name (exit status $status)"
}

# ---- building ----

settings=()
[ -n "${LIB:-}" ] && settings+=(LIB="$(realpath "$LIB")")
[ -n "${LDLIBS:-}" ] && settings+=(LDLIBS="$LDLIBS")
holds "the library builds" make -C host OUT="$work/host" "${settings[@]}"
lib=$work/host/parts.a
[ -s "$lib" ] || { cat "$work/out"; echo "$passed passed, $failed failed"; exit 1; }
holds "the programs build" make -C tests/file OUT="$work/programs" LIB="$lib" LDLIBS="${LDLIBS:-}"

# ---- calls, readers and writers, cuts ----

mkdir "$work/layer" "$work/layer-wide" "$work/cuts" "$work/cuts-wide" "$work/busy"
chmod 755 "$work" # parts run as nobody
counted "the layer's calls" "$work/programs/layer" "$work/layer"
counted "the same on files of version 2.0.0" "$work/programs/layer" "$work/layer-wide" wide
counted "two writers and six readers" "$work/programs/busy" "$seconds" "$work/busy/site"
counted "and writers that are killed" "$work/programs/busy" "$seconds" "$work/busy/site2" kill
counted "cuts" "$work/programs/cuts" --seed "$seed" --random "$random" --states "$states" --command "$work/host/bhtf" "$work/cuts"
counted "cuts of a file of version 2.0.0" "$work/programs/cuts" --wide --seed "$seed" --random 2 --states 2 --scenes 13 "$work/cuts-wide"

# ---- as others use it ----

installs() {
  make -C host OUT="$work/host" "${settings[@]}" install PREFIX="$work/usr" || return 1
  local file
  for file in include/bhtf_file.h lib/libbhtf.so.1 lib/libbhtf.so lib/libbhtf.a lib/pkgconfig/bhtf.pc share/bhtf/bhtf/__init__.py \
    share/man/man3/bhtf.3 share/man/man3/bhtf_file.3 share/man/man3/bhtf_delta.3; do
    [ -s "$work/usr/$file" ] || { echo "no $file"; return 1; }
  done
}
holds "installs" installs
export PKG_CONFIG_PATH=$work/usr/lib/pkgconfig LD_LIBRARY_PATH=$work/usr/lib
holds "the shared object has its name" sh -c "objdump -p '$work/usr/lib/libbhtf.so' | grep -q 'SONAME *libbhtf.so.1\$'"
exports() { nm -D --defined-only "$work/usr/lib/libbhtf.so" | awk '$2 == "T" { print $3 }' | grep -v '^bhtf_'; }
holds "and shows nothing but the headers' calls" sh -c "! { $(declare -f exports); work='$work'; exports; }"
in_c() { gcc -std=c99 -Wall -Wextra -Werror -pedantic host/examples/points.c $(pkg-config --cflags --libs bhtf) "$@" -o "$work/points"; }
in_cc() { g++ -std=c++98 -Wall -Wextra -Werror -pedantic host/examples/season.cc $(pkg-config --cflags --libs bhtf) -o "$work/season"; }
holds "the example in C" in_c
holds "linked with the archive" in_c -static-libgcc -Wl,-Bstatic -lbhtf -Wl,-Bdynamic
holds "the example in C++" in_cc
site=$work/site.bhtf
bhtf=$work/usr/bin/bhtf
"$bhtf" create "$site" --key-size 12 --slots 100 && "$bhtf" import "$site" host/site.csv --quiet
holds "the example in C stores" "$work/points" "$site" CP-113 'a text'
gives "and prints" 0 '^a text$' "$work/points" "$site" CP-113
gives "what is not there is told" 1 'There is no point of that name' "$work/points" "$site" nobody
gives "and where there is no file" 1 'nowhere: cannot open: No such file' "$work/points" "$work/nowhere" CP-1
gives "the example in C++ takes all or nothing" 1 'refused \(14\)' "$work/season" "$site" CP-113 nobody
gives "nothing" 0 '^a text$' "$work/points" "$site" CP-113
holds "all" "$work/season" "$site" CP-113
gives "all is gone" 1 'There is no point' "$work/points" "$site" CP-113
export PYTHONPATH=$work/usr/share/bhtf
gives "a batch in Python" 0 '^14 points, sound$' python3 -B tests/file/batch.py "$site"
gives "the example in Python" 0 '^CP-101: 5\.341 m: east \+3\.402, north \+4\.118$' python3 -B host/examples/stakeout.py "$site" CP-101 4482110 5351870
holds "the package for Python" python3 -B tests/file/module.py "$work"
for page in bhtf.3 bhtf_file.3 bhtf_delta.3; do
  holds "$page passes mandoc" mandoc -Tlint "host/man/$page"
  holds "$page has no warnings" sh -c "[ -z \"\$(man --warnings -l host/man/$page 2>&1 >/dev/null)\" ]"
done
every_call() {
  local call
  for call in $(sed -n 's/.*\(bhtf_file_[a-z_]*\)(.*/\1/p' host/include/bhtf_file.h); do
    grep -q "$call" host/man/bhtf_file.3 || { echo "no $call"; return 1; }
  done
  for call in $(sed -n 's/^#define \(BHTF_FILE_[A-Z_]*\) 10[0-9]u.*/\1/p' host/include/bhtf_file.h); do
    grep -q "$call" host/man/bhtf_file.3 || { echo "no $call"; return 1; }
  done
}
holds "bhtf_file.3 has every call and answer" every_call

# ---- disks ----

as_other() { if [ "$(id -u)" -eq 0 ]; then setpriv --reuid 65534 --regid 65534 --clear-groups "$@"; else "$@"; fi; }
chmod 755 "$work/usr" "$work/usr/lib" "$work/host"
mkdir "$work/closed"
cp "$site" "$work/closed/site"
chmod 666 "$work/closed/site"
[ "$(id -u)" -eq 0 ] || chmod 555 "$work/closed" # nobody's for root, and its owner's for anybody else
gives "a directory that must not be written" 1 'nothing was changed: its journal .*cannot be created: Permission denied' \
  as_other "$work/points" "$work/closed/site" CP-101 new
holds "the file is as it was" cmp "$site" "$work/closed/site"
chmod 755 "$work/closed"
mkdir "$work/disk"
if mount -t tmpfs -o size=64k tmpfs "$work/disk" 2>/dev/null; then
  mounted=$work/disk
  cp "$site" "$work/disk/site"
  head -c 65536 /dev/zero >"$work/disk/filler" 2>/dev/null
  gives "a full disk" 1 'nothing was changed: its journal .*has no space: No space left' "$work/points" "$work/disk/site" CP-101 new
  holds "the file is as it was" cmp "$site" "$work/disk/site"
  holds "no journal is left" test ! -e "$work/disk/site.journal"
  rm "$work/disk/filler"
  holds "and can be written again" "$work/points" "$work/disk/site" CP-101 new
  umount "$work/disk" && mounted=
else
  echo "no small disk can be mounted here"
fi

# A file system whose blocks are shorter than pages, and a file with holes: a change finds its places, or is refused before it begins.
tight() {
  local free left
  for free in 16 24 32 40 48 56 64 80 96 112; do
    rm -f "$work/disk/site" "$work/disk/site.journal" "$work/disk/filler"
    cp --sparse=always "$work/holes" "$work/disk/site"
    sync -f "$work/disk"
    left=$(df --output=avail -k "$work/disk" | tail -n 1)
    head -c $(((left - free) * 1024)) /dev/zero >"$work/disk/filler"
    sync -f "$work/disk"
    "$bhtf" import "$work/disk/site" "$work/notes.csv" --quiet >"$work/said" 2>&1 || grep -q 'nothing was changed' "$work/said" ||
      { echo "$free KiB free"; cat "$work/said"; return 1; }
    [ ! -e "$work/disk/site.journal" ] || { echo "$free KiB free: a journal is left"; return 1; }
  done
}
"$bhtf" create "$work/holes" --slots 100 --key-size 8 --size 96K
for i in $(seq 60); do echo "P$i,$i.5,$i.5,1,$(head -c $((i * 9)) /dev/zero | tr '\0' m)"; done |
  sed '1i name,easting,northing,height,note' >"$work/notes.csv"
head -c 4194304 /dev/zero >"$work/image"
if mkfs.ext4 -q -N 64 -m 0 -b 1024 "$work/image" 2>/dev/null && mount -o loop "$work/image" "$work/disk" 2>/dev/null; then
  mounted=$work/disk
  holds "a disk of short blocks that becomes full" tight
  umount "$work/disk" && mounted=
else
  echo "no disk of short blocks can be mounted here"
fi
truncate -s 15T "$work/sparse"
takes_little() {
  python3 -c 'import resource, subprocess, sys
subprocess.run(sys.argv[1:])
sys.exit(resource.getrusage(resource.RUSAGE_CHILDREN).ru_maxrss > 100000)' "$bhtf" compact "$work/sparse"
}
holds "a file that is too long takes no memory" takes_little
rm "$work/sparse"

# ---- a command whose disk fails when its change is made ----

office=$work/office changes=$work/changes copy=$work/copy.bhtf
failing() { LD_PRELOAD=$work/programs/failing.so FAILS=$1 "${@:2}"; }
"$bhtf" create "$office" --key-size 12 --slots 100 && cp "$office" "$copy"
sed 's/brass/steel/' host/site.csv >"$work/steel.csv"
gives "a journal that cannot be removed" 0 'office: warning: the change is stored' failing unlink "$bhtf" add "$office" A x --delta "$changes"
"$bhtf" add "$office" B y --delta "$changes"
gives "an import says then what it stored" 0 '^12 points stored' failing unlink "$bhtf" import "$office" host/site.csv --delta "$changes"
gives "a disk that fails when the mark is there" 2 'whether its points are stored in .* is told' \
  failing 4 "$bhtf" import "$office" "$work/steel.csv" --replace --delta "$changes"
gives "the next command finishes that; its own change fails" 2 'nothing was stored' \
  failing 4 "$bhtf" import "$office" host/site.csv --replace --delta "$changes"
gives "each change that was made has its record, and no other" 0 '^4 records applied' "$bhtf" apply "$copy" "$changes"
holds "which lead to the file" cmp "$office" "$copy"
gives "as it should be" 0 steel "$bhtf" get "$office" CP-101
if [ "$(id -u)" -eq 0 ]; then
  mkdir "$work/group"
  cp "$office" "$work/group/site"
  chown -R 65533:2000 "$work/group"
  chmod 775 "$work/group" "$work/programs"
  chmod 664 "$work/group/site"
  gives "a writer that is of the file's group" 0 'site: warning: the change is stored' \
    failing unlink setpriv --reuid 65534 --regid 65534 --groups 2000 "$bhtf" add "$work/group/site" C z
  gives "makes a journal for the group" 0 '^2000 664$' stat -c '%g %a' "$work/group/site.journal"
fi

# ---- inputs without end, and what a power cut leaves of a record ----

endless() { yes | (ulimit -v 300000 && timeout 20 "$bhtf" apply "$copy" -); }
gives "apply of an endless input" 2 'record 1: this is no delta' endless
too_long() { head -c 268435457 /dev/zero | "$bhtf" import "$office" - --gsi; }
gives "a file of another program that is too long" 2 'has more than 268435456 bytes' too_long
"$bhtf" delta "$copy" "$office" >"$work/one"
gives "a delta that is cut in its head" 2 'record 1: the delta was cut short' sh -c "head -c 60 '$work/one' | '$bhtf' apply '$copy' -"
gives "or in its content" 2 'record 1: the delta was cut short' sh -c "head -c -1 '$work/one' | '$bhtf' apply '$copy' -"
"$bhtf" create "$work/other" --size 8K --slots 20
gives "one for a file of another length" 1 'record 1 of .* is for a file of' "$bhtf" apply "$work/other" "$work/one"
tail_of() { # NAME COMMAND: what the command puts after the last record is dropped
  cp "$changes" "$work/tail"
  eval "$2"
  gives "$1" 0 'warning: its last record was of a change that was cut short' "$bhtf" add "$office" "T$RANDOM" x --delta "$work/tail"
  cp "$work/tail" "$changes"
}
tail_of "after the last record: zeros" 'head -c 150 /dev/zero >>"$work/tail"'
tail_of "after the last record: its beginning" 'head -c 100 "$work/one" >>"$work/tail"'
tail_of "after the last record: bytes" 'head -c 700 /dev/urandom >>"$work/tail"'
printf 'a text\n' >"$work/text"
gives "a file that is none of records is left alone" 2 'not a file of whole records' "$bhtf" add "$office" U x --delta "$work/text"
"$bhtf" create "$work/private" --size 8K --slots 20
chmod 600 "$work/private"
"$bhtf" add "$work/private" A x --delta "$work/private.delta"
gives "a file of records has the rights of its file" 0 '^600$' stat -c %a "$work/private.delta"

# ---- a journal that is damaged ----

half=$work/half
"$bhtf" create "$half" --key-size 12 --slots 100
cp "$half" "$half.before"
failing 3 "$bhtf" import "$half" host/site.csv --quiet 2>/dev/null
cp "$half" "$half.after"
cp "$half.before" "$half"
dd if="$half.after" of="$half" bs=2100 count=1 conv=notrunc 2>/dev/null
truncate -s -1 "$half.journal"
gives "half a change whose journal is cut is not read" 2 'is damaged, and the file may be half written' "$bhtf" count "$half"
gives "nor written" 2 'bhtf recover' "$bhtf" add "$half" A x
gives "recover says what is known" 1 'recover .*--finish' "$bhtf" recover "$half"
gives "and its choices, one of them" 2 'not both' "$bhtf" recover "$half" --finish --set-aside
cp "$half.journal" "$half.kept"
gives "sets the journal aside" 0 'half\.journal\.aside-1 now' "$bhtf" recover "$half" --set-aside
holds "which is kept" cmp "$half.kept" "$half.journal.aside-1"
mv "$half.journal.aside-1" "$half.journal"
gives "or finishes the change" 0 'the change is made' "$bhtf" recover "$half" --finish
holds "as it should be" cmp "$half.after" "$half"
gives "then there is none" 0 'there is none' "$bhtf" recover "$half"

# ---- texts on a terminal, and in a spreadsheet ----

on_terminal() { python3 tests/file/terminal.py "$bhtf" "$@" </dev/null; }
printf '1,2,3,\033]0;title\007\033[2J\302\233\342\200\256' | "$bhtf" add "$office" ESC --allow-far --allow-near
"$bhtf" add "$office" '=1+1' '1,-2,3,@SUM(1)' --allow-far --allow-near
quoted='1,2,3,\\x1B\]0;title\\x07\\x1B\[2J\\xC2\\x9B\\xE2\\x80\\xAE'
gives "get on a terminal" 0 "^$quoted\$" on_terminal get "$office" ESC
gives "get of several" 0 "^ESC<09>$quoted\$" on_terminal get "$office" ESC '=1+1'
gives "export" 0 "^ESC,$quoted" on_terminal export "$office"
gives "list --tsv" 0 "${quoted#1,2,3,}" on_terminal list "$office" --tsv
clean() { ! "$bhtf" "$@" 2>/dev/null | LC_ALL=C grep -aqP '[\x00-\x08\x0B-\x1F\x7F]|\xC2[\x80-\x9F]|\xE2\x80\xAE'; }
holds "list --json has no bytes that change a terminal" clean list "$office" --json
holds "nor has export --landxml" clean export "$office" --landxml
gives "what goes to a file is as it is" 0 '^4 ' sh -c "'$bhtf' get '$office' ESC | LC_ALL=C grep -aobP '\033|\007|\302\233' | wc -l | sed 's/\$/ /'"
gives "formulas are made harmless" 0 "^'=1\+1,1,-2,3,'@SUM" "$bhtf" export "$office" --spreadsheet
gives "if asked for" 0 '^=1\+1,1,-2,3,@SUM' "$bhtf" export "$office"
gives "a report that cannot be written says what is stored" 2 'standard output: .*; the change is stored' \
  sh -c "'$bhtf' import '$office' host/site.csv --replace >/dev/full"

# ---- a table that was made to be slow ----

cat >"$work/slow.py" <<'END'
import struct, sys
image = bytearray(open(sys.argv[1], "rb").read())
size, slots = struct.unpack(">II", image[12:20])
for i in range(slots):
    image[2048 + i * (size + 4):2048 + (i + 1) * (size + 4)] = b"%0*d" % (size, i) + bytes(4)
image[20:24] = struct.pack(">I", slots)
open(sys.argv[1], "wb").write(image)
END
"$bhtf" create "$work/slow" --key-size 8 --slots 200000
python3 "$work/slow.py" "$work/slow"
cp "$work/slow" "$work/slow.before"
gives "stat says beforehand how long it may take" 124 'stat may take some [0-9]+ (seconds|minutes)' timeout -s INT 1 "$bhtf" stat "$work/slow"
gives "and delete" 124 'delete may take some [0-9]+ (seconds|minutes)' timeout -s INT 1 "$bhtf" delete "$work/slow" 00000007
holds "an interrupt leaves the file as it was" cmp "$work/slow" "$work/slow.before"
holds "and no journal" test ! -e "$work/slow.journal"

# ---- with the sanitizers ----

holds "the host builds with the sanitizers" make -C host OUT="$work/sane" SANITIZE=yes "${settings[@]}"
holds "the programs, too" make -C tests/file OUT="$work/sane/programs" LIB="$work/sane/parts.a" LDLIBS="${LDLIBS:-}" \
  CFLAGS="-std=c99 -O1 -g -Wno-format-truncation -I../../host/include -fsanitize=address,undefined -fno-sanitize-recover=all" \
  "$work/sane/programs/layer"
mkdir "$work/layer2" "$work/fuzzed"
counted "the layer's calls with the sanitizers" env ASAN_OPTIONS=detect_leaks=0 "$work/sane/programs/layer" "$work/layer2"
counted "inputs that nobody means" bash tests/file/fuzz.sh "$fuzzed" "$work/fuzzed"

# ---- seeded faults ----

station=${LIB:-crates/station/out/libstation.a}
station=$(realpath "$station")

# builds: the cuts over a copy of the layer in $work/copy, in which calls list what they change however short the file is
builds() {
  # shellcheck disable=SC2086
  gcc -std=c99 -O1 -D_POSIX_C_SOURCE=200809L -D_FILE_OFFSET_BITS=64 -DCOMPARED_BYTES=0 -Wno-format-truncation "$work"/copy/*.c \
    tests/file/cuts.c tests/file/trace.c tests/file/disk.c "$station" ${LDLIBS:-} -o "$work/copy/program"
}

# copies: a fresh copy of the layer
copies() {
  rm -rf "$work/copy"
  mkdir "$work/copy" "$work/copy/cuts" && cp host/file/* host/include/* "$work/copy"
}

# runs SCENES STATES: the cuts over the copy; of a whole image that is put in a file's place alone where SCENES is put
# With a seed of its own, at which each fault is found: with few random cuts another seed may miss one.
runs() {
  local which=(--scenes "$1")
  [ "$1" != put ] || which=(--put)
  timeout 300 "$work/copy/program" --seed 280 --random 2 --states "$2" "${which[@]}" "$work/copy/cuts"
}

copies
holds "calls that list what they change: builds" builds
holds "calls that list what they change: cut" runs 99 4 # every scene that a fault below is looked for in

copies
sed -i 's/^#ifdef O_TMPFILE/#ifdef NO_TMPFILE/' "$work/copy/layer_name.c"
holds "new files and journals under temporary names: builds" builds
holds "new files and journals under temporary names: cut" runs 9 4
holds "images that are put, under temporary names: cut" runs put 4
cat >"$work/rights.c" <<'END'
#include "bhtf_file.h"
int main(int n, char **path)
{
    static const uint8_t image[4096];

    return n != 2 || bhtf_file_create(path[1], image, sizeof image, NULL, NULL) != 0;
}
END
new_rights() {
  # shellcheck disable=SC2046,SC2086
  gcc -std=c99 -D_POSIX_C_SOURCE=200809L -D_FILE_OFFSET_BITS=64 -Wno-format-truncation -I"$work/copy" "$work/rights.c" \
    $(ls "$work"/copy/*.c) "$station" ${LDLIBS:-} -o "$work/rights" &&
    (umask 027 && "$work/rights" "$work/new") && [ "$(stat -c %a "$work/new")" = 640 ]
}
holds "which have the rights that the mask leaves" new_rights

# fault NAME FILE OLD NEW SCENES: the cuts of a layer with OLD made NEW, which must stand there once, are not all passed
fault() {
  local status
  copies
  if ! python3 - "$work/copy/$2" "$3" "$4" <<'END'
import sys
path, old, new = sys.argv[1:]
text = open(path).read()
if text.count(old) != 1:
    sys.exit("%d times: %s" % (text.count(old), old))
open(path, "w").write(text.replace(old, new))
END
  then fail "$1: the fault cannot be seeded"; return; fi
  if ! builds >"$work/out" 2>&1; then
    fail "$1: does not build" "$(head -n 3 "$work/out")"
    return
  fi
  runs "$5" 4 >"$work/out" 2>&1
  status=$?
  # a fault is found by a cut that did not pass: not by a crash, nor by the time that ran out
  if [ "$status" -eq 1 ] && tail -n 1 "$work/out" | grep -qE '^[0-9]+ passed, [1-9][0-9]* failed$'; then
    pass "found: $1"
    found=$((found + 1))
  else
    fail "not found: $1" "status $status: $(tail -n 1 "$work/out")"
  fi
}
fault "the mark before the content is flushed" layer_journal.c '    if (error == 0)
        error = layer_flush(f, f->journal);
    if (error == 0 && !f->named' '    if (error == 0 && !f->named' 3
fault "stretches before the mark is flushed" layer_journal.c '    error = set_mark(f, MARK);
    if (error == 0)
        error = layer_flush(f, f->journal);' '    error = set_mark(f, MARK);' 3
fault "the mark taken away before the file is flushed" layer_journal.c '    if (error == 0)
        error = layer_flush(f, f->fd);
    if (error == 0)
        error = write_base(f, after);
    if (error == 0)
        error = set_mark(f, 0);' '    if (error == 0)
        error = write_base(f, after);
    if (error == 0)
        error = set_mark(f, 0);
    if (error == 0)
        error = layer_flush(f, f->fd);' 3
fault "no mark" layer_journal.c 'error = set_mark(f, MARK);' 'error = 0;' 3
fault "new content before mark 0 is flushed" layer_journal.c 'int error = f->unmarked ? layer_flush(f, f->journal) : 0;' \
  'int error = 0;' 9
fault "a file's sum that is not kept" layer_journal.c 'error = write_base(f, after);' 'error = 0;' 9
fault "the journal's name not flushed" layer_journal.c '? 0 : layer_sync_names(f->directory, f->journal);' '? 0 : 0;' 3
fault "a recovery before the mark is flushed" layer_recover.c 'number = flush_found(f);' 'number = BHTF_ACCEPTED;' 99
fault "a reader that does not look for a journal" layer.c '            number = layer_journal_read(f);
        if (number != BHTF_FILE_REPLACED ||' '            number = 0;
        if (number != BHTF_FILE_REPLACED ||' 3
fault "a writer that does not look for a journal" layer.c 'number = layer_journal_recover(f, deadline);' 'number = 0;' 3
fault "a commit that is not flushed" layer_journal.c 'error = layer_flush(f, f->fd);' 'error = 0;' 3
fault "a page that is forgotten" layer.c 'page <= (from + size - 1) / LAYER_PAGE; page++)
        f->touched' 'page < (from + size - 1) / LAYER_PAGE; page++)
        f->touched' 3
fault "a new file named before it is flushed" layer_create.c 'fsync(m->fd) != 0))' '0))' 0
fault "a new file's name not flushed" layer_create.c 'error = layer_sync_names(m->directory, m->fd);' 'error = 0;' 0
fault "an image put in a file's place that is not flushed" layer_create.c 'fsync(m->fd) != 0))' '0))' put
fault "one that is flushed when it is in the place" layer_create.c '    uint32_t number = flush_new(m);

    if (number == BHTF_ACCEPTED)
        number = name_it(m);' '    uint32_t number = name_it(m);

    if (number == BHTF_ACCEPTED)
        number = flush_new(m);' put
fault "a rename that is not flushed" layer_create.c 'error = layer_sync_names(m->directory, m->fd);' 'error = 0;' put
fault "a journal that may come back beside a new image" layer_create.c 'int error = m->sync ? layer_sync_names(m->directory, m->fd) : 0;' \
  'int error = 0;' put
fault "an image over a journal whose change is not finished" layer.c 'number = layer_journal_recover(f, deadline);' 'number = 0;' put

echo "of these $found faults"
echo "$passed passed, $failed failed"
[ "$failed" -eq 0 ] && [ "$passed" -gt 0 ]
