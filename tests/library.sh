#!/usr/bin/env bash
# The library as a station's programmer has it: its calls, its names, the examples as they stand, the page "A station in fifty lines", the
# package for Python in a fresh virtual environment without a network, and the shared object's interface (ABI) beside that of the last
# landing. A line for each test that fails; the last line is 'N passed, M failed', and the status 0 only if M is 0.
#   tests/library.sh [--seed N]
#   tests/library.sh --keep-abi   writes tests/data/libbhtf.abi anew, as the last step of a landing
#   LIB=path     the proved library, from the repository's root; crates/station/out/libstation.a unless given
#   LDLIBS=..    if it needs more
set -u
export LC_ALL=C.UTF-8
cd "$(dirname "$0")/.." || exit 2
root=$PWD
seed=$RANDOM
keep=
while [ $# -gt 0 ]; do
  case $1 in
    --seed) seed=$2; shift ;;
    --keep-abi) keep=yes ;;
    *) echo "unknown: $1" >&2; exit 2 ;;
  esac
  shift
done
echo "seed $seed"
. tests/tally.sh
faults=0
python=/usr/bin/python3 # Debian's, which has numpy and mypy
station=$(realpath "${LIB:-crates/station/out/libstation.a}") || exit 2
base=${TMPDIR:-/dev/shm}
[ -w "$base" ] || base=/tmp
work=$(mktemp -d "$base/bhtf-library.XXXXXX")
trap 'rm -rf "$work"' EXIT
settings=(LIB="$station")
[ -n "${LDLIBS:-}" ] && settings+=(LDLIBS="$LDLIBS")

# quietly COMMAND..: what it prints is shown if it fails
quietly() {
  "$@" >"$work/out" 2>&1 && return
  tail -n 5 "$work/out"
  return 1
}

# says STATUS PATTERN COMMAND..: status, and the pattern in what is printed
says() {
  local status=$1 pattern=$2 got
  shift 2
  "$@" >"$work/out" 2>&1
  got=$?
  [ "$got" -eq "$status" ] && grep -aqE -- "$pattern" "$work/out" && return
  echo "  status $got: $(head -c 300 "$work/out")"
  return 1
}

# counted NAME COMMAND..: a program whose last line is 'N passed, M failed'
counted() {
  local name=$1 last p f
  shift
  "$@" >"$work/out" 2>&1
  grep -v '^ok: ' "$work/out" | grep -vE '^[0-9]+ passed, [0-9]+ failed$'
  last=$(tail -n 1 "$work/out" | grep -E '^[1-9][0-9]* passed, [0-9]+ failed$') || { test_that "$name ended early" false; return; }
  p=${last%% *} f=${last##*, }
  passed=$((passed + p))
  failed=$((failed + ${f%% *}))
}

# fault NAME COMMAND..: a test of a test, which must fail
fault() {
  local name=$1
  shift
  if "$@" >/dev/null 2>&1; then test_that "not found: $name" false; else passed=$((passed + 1)) faults=$((faults + 1)); fi
}

test_that "it installs" quietly make -s -C host "${settings[@]}" OUT="$work/host" install PREFIX="$work/usr"
[ -s "$work/usr/lib/libbhtf.so" ] || { tally; exit 1; }
shared=$work/usr/lib/libbhtf.so.1

# ---- the interface ----

abi_of() { # SHARED: without places of this machine
  abidw --no-corpus-path --no-comp-dir-path --no-show-locs --drop-private-types --headers-dir "$root/host/include" "$1"
}
if [ -n "$keep" ]; then
  abi_of "$shared" >tests/data/libbhtf.abi
  exit
fi
kept=tests/data/libbhtf.abi
# Calls may be added; those that are there stay, with their arguments and what their structs hold.
same_abi() { quietly abidiff --no-added-syms --drop-private-types --headers-dir2 "$root/host/include" "$1" "$2"; }
test_that "the interface of the last landing is there" same_abi "$kept" "$shared"
changed_abi() { # SED FILE: a library with a change of its headers or code
  rm -rf "$work/other" && mkdir "$work/other" && cp -r host "$work/other/host" && rm -rf "$work/other/host/build"* &&
    sed -i "$1" "$work/other/host/$2" && ! cmp -s "host/$2" "$work/other/host/$2" || { echo "no place for $1"; exit 2; }
  make -s -C "$work/other/host" "${settings[@]}" OUT="$work/other/out" "$work/other/out/libbhtf.so.1" >/dev/null 2>&1
}
changed_abi 's/^    void \*with;$/    void *with; int more;/' include/bhtf_file.h
fault "a struct that has grown" same_abi "$kept" "$work/other/out/libbhtf.so.1"
changed_abi 's/bhtf_file_unsure/bhtf_file_is_unsure/' include/bhtf_file.h
sed -i 's/bhtf_file_unsure/bhtf_file_is_unsure/' "$work/other/host/file/layer.c"
make -s -C "$work/other/host" "${settings[@]}" OUT="$work/other/out" "$work/other/out/libbhtf.so.1" >/dev/null 2>&1
fault "a call that is gone" same_abi "$kept" "$work/other/out/libbhtf.so.1"

declared() { grep -hoE '^[a-z].*\bbhtf_[a-z0-9_]+\(' host/include/*.h | grep -oE 'bhtf_[a-z0-9_]+\($' | tr -d '(' | sort; }
of_shared() { nm -D --defined-only "$shared" | awk '{ print $3 }' | sort; }
of_archive() { nm -g --defined-only "$work/usr/lib/libbhtf.a" | awk 'NF == 3 { print $3 }' | sort; }
test_that "there are calls" [ "$(declared | wc -l)" -ge 75 ]
test_that "the shared object shows what the headers declare, and nothing else" [ "$(declared)" = "$(of_shared)" ]
test_that "and so does the archive" [ "$(declared)" = "$(of_archive)" ]
numbers_agree() { # each number of an enum is that of its macro
  { echo '#include "bhtf_delta.h"'
    grep -hoE '\bBHTF_[A-Z0-9_]+ = [0-9]+' host/include/*.h | while read -r name _ number; do
      echo "typedef char is_$name[$name == $number ? 1 : -1];"
    done; } >"$work/numbers.c"
  [ "$(wc -l <"$work/numbers.c")" -gt 50 ] && quietly gcc -std=c99 -Wall -Wextra -Werror -pedantic -Ihost/include -c "$work/numbers.c" -o "$work/numbers.o"
}
test_that "enums and macros say the same numbers" numbers_agree
without_enum() { # answers that are macros of the headers alone
  local name
  for name in $(sed -nE 's/^#define (BHTF_(FILE_|DELTA_|POINT_)?[A-Z0-9_]+) ([0-9]|1[0-9]|2[0-3]|10[1-9]|110|12[1-9]|130)u .*/\1/p' host/include/*.h |
    grep -vE 'BHTF_(MESSAGE_HEADER|PAIR|SLOT_NUMBER|KEY_MAX|WIDTH_MAX|DELTA_MOST|FILE_(WRITE|NO_SYNC|ANY|NO_JOURNAL|UNFINISHED|OF_NO_USE|LOOK|FINISH|SET_ASIDE))'); do
    grep -qhE "\b$name = " host/include/*.h || echo "$name"
  done
}
test_that "each answer is in an enum" [ -z "$(without_enum)" ]
words_for_all() {
  "$python" -B - "$shared" <<'END'
import ctypes, re, sys
message = ctypes.CDLL(sys.argv[1]).bhtf_message
message.restype = ctypes.c_char_p
known = {int(n) for h in ("bhtf", "bhtf_file", "bhtf_delta") for block in
         re.findall(r"enum bhtf_(?:\w+_)?answer \{(.*?)\}", open("host/include/%s.h" % h).read(), re.S) for n in re.findall(r"= (\d+)", block)}
words = {n: message(n) for n in range(200)}
unknown = words[199]
assert len(known) > 40 and all((words[n] != unknown) == (n in known) for n in words), [n for n in words if (words[n] != unknown) != (n in known)]
assert len({words[n] for n in known}) == len(known)
END
}
test_that "each answer has words of its own" quietly words_for_all

# ---- the calls, under the sanitizers ----

# sane PROGRAM [FLAG..]: over the layer's sources
sane() {
  # shellcheck disable=SC2086
  gcc -std=c99 -O1 -g -Wall -Wextra -Werror -pedantic -Wno-format-truncation -D_POSIX_C_SOURCE=200809L -D_FILE_OFFSET_BITS=64 \
    -fsanitize=address,undefined -fno-sanitize-recover=all -I"${from:-host}/include" "tests/library/$1.c" "${from:-host}"/file/*.c "$station" \
    ${LDLIBS:-} -o "$work/$1"
}
for program in handles deltas; do
  mkdir "$work/$program.d"
  test_that "$program builds" quietly sane "$program"
  counted "$program" "$work/$program" "$work/$program.d" "$seed"
done

# seeded NAME PROGRAM FILE SED: the program over a layer with a fault
seeded() {
  rm -rf "$work/copy" && mkdir -p "$work/copy/d" && cp -r host/file host/include "$work/copy" && sed -i "$4" "$work/copy/file/$3"
  if cmp -s "host/file/$3" "$work/copy/file/$3" || ! from=$work/copy sane "$2" >"$work/out" 2>&1; then
    test_that "$1: the fault cannot be seeded: $(head -n 2 "$work/out")" false
    return
  fi
  fault "$1" "$work/$2" "$work/copy/d" "$seed"
}
seeded "a name that is cut" handles layer_points.c 's/length == 0 || length > most/length == 0/; s/memcpy(to, name, length)/memcpy(to, name, length < most ? length : most)/'
seeded "a text that is copied in part" handles layer_points.c 's/\*length > room)/0)/; s/memcpy(to, text, \*length)/memcpy(to, text, *length < room ? *length : room)/'
seeded "a gap that is not seen" deltas delta.c 's/return older == 0 ? BHTF_ACCEPTED : BHTF_DELTA_GAP;/return BHTF_ACCEPTED;/'
seeded "a promise that is not kept" deltas delta.c 's/return same_sum(sum, promised)/return (same_sum(sum, promised) || 1)/'
seeded "rights that are lost" deltas layer_create.c 's/mode = about.st_mode \& 0777;/mode = 0600;/'
seeded "any file is replaced" deltas layer_put.c 's/if (f->length == 0 ||/if (1 ||/'

# ---- the examples as they stand ----

export PKG_CONFIG_PATH=$work/usr/lib/pkgconfig LD_LIBRARY_PATH=$work/usr/lib
bhtf=$work/usr/bin/bhtf
mkdir "$work/ex"
in_c() { # shellcheck disable=SC2046
  quietly gcc -std=c99 -O2 -Wall -Wextra -Werror -pedantic "$1" $(pkg-config --cflags --libs bhtf) -lm -o "$2"; }
in_cc() { # shellcheck disable=SC2046
  quietly g++ "-std=$3" -Wall -Wextra -Werror -pedantic "$1" $(pkg-config --cflags --libs bhtf) -o "$2"; }
for name in points stakeout follow readings; do test_that "$name.c builds" in_c "host/examples/$name.c" "$work/ex/$name.c"; done
for name in season staked; do test_that "$name.cc builds" in_cc "host/examples/$name.cc" "$work/ex/$name.cc" c++98; done
for name in follow readings; do test_that "$name.cc builds" in_cc "host/examples/$name.cc" "$work/ex/$name.cc" c++17; done
for name in stakeout follow readings; do
  test_that "$name.rs builds" quietly rustc --edition 2021 -D warnings -L "$work/usr/lib" "host/examples/$name.rs" -o "$work/ex/$name.rs"
done

# example NAME.LANGUAGE WORDS..: runs it
example() {
  local name=$1
  shift
  case $name in
    *.py) PYTHONPATH=$work/usr/share/bhtf "$python" -B "$root/host/examples/$name" "$@" ;;
    *) "$work/ex/$name" "$@" ;;
  esac
}
mkdir "$work/files" && cd "$work/files" || exit 2
"$bhtf" create site -k 12 -s 100 && "$bhtf" import site "$root/host/site.csv" -q && cp site monday
"$bhtf" add site CP-113 4482120,5351880,489.1,new --delta changes && "$bhtf" delete site CP-103 --delta changes
"$bhtf" set site CP-104 -H 500 --delta changes -q
long=CP-101-IS-A-VERY-LONG-NAME
refuses_long='the name has 26 bytes, and in this file a name has 1 to 12'
for language in c rs py; do
  test_that "stakeout.$language" says 0 '^CP-101: 5\.341 m: east \+3\.402, north \+4\.118$' example stakeout.$language monday CP-101 4482110 5351870
  test_that "stakeout.$language refuses a long name" says 1 "$refuses_long" example stakeout.$language monday $long 1 2
  test_that "stakeout.$language has no such point" says 1 '^stakeout: ' example stakeout.$language monday NOBODY 1 2
done
for language in c cc rs py; do
  cp monday copy
  follows() { example "follow.$language" copy <changes >said; }
  test_that "follow.$language" follows
  test_that "follow.$language makes an equal copy" cmp site copy
  test_that "follow.$language says what it did" grep -q '^3 applied, 0 passed over$' said
  [ $language = rs ] || test_that "follow.$language names the points" [ "$(grep -v applied said | sed 's/^other/changed/' | sort | tr '\n' ';')" = \
    "changed CP-104;gone CP-103;new CP-113;" ]
  follows_again() { example "follow.$language" copy <changes; }
  test_that "follow.$language has them then" says 0 '^0 applied, 3 passed over$' follows_again
  cut() { tail -c +2 changes | example "follow.$language" copy; }
  test_that "follow.$language refuses what is no delta" says 1 '[Tt]his is no delta' cut
  test_that "the copy is as it was" cmp site copy
  cp monday copy
  test_that "readings.$language" says 0 '^-13$' example readings.$language copy R1 12 -13
  test_that "readings.$language stores behind them" [ "$(example readings.$language copy R1 2147483647 -2147483648 | tr '\n' ' ')" = \
    "12 -13 2147483647 -2147483648 " ]
  test_that "readings.$language refuses a long name" says 1 "$refuses_long" example readings.$language copy $long 1
  test_that "readings.$language refuses another text" says 1 '^readings: ' example readings.$language copy CP-101 1
  test_that "the text is there" [ "$("$bhtf" get copy CP-101)" = "$("$bhtf" get monday CP-101)" ]
  printf '\002abcd' | "$bhtf" add copy TWO && cp copy before
  test_that "readings.$language refuses records of another width" says 1 '^readings: ' example readings.$language copy TWO 1
  test_that "and leaves them" cmp before copy
  test_that "the file is sound" quietly "$bhtf" check copy
done
too_many() { # shellcheck disable=SC2046
  example readings.c copy R2 $(seq 1001); }
test_that "readings.c refuses more than it can hold" says 1 '^readings: ' too_many
test_that "and stores none of them" says 1 'no point' "$bhtf" get copy R2
for wrong in 2147483648 -2147483649 12x x ''; do
  test_that "readings.cc refuses '$wrong'" says 1 ' is no reading$' example readings.cc copy R2 1 "$wrong"
done
test_that "and stores nothing" says 1 'no point' "$bhtf" get copy R2
cp monday copy
stakes() { printf '%s\n' "$@" | example staked.cc copy; }
test_that "staked.cc" says 0 '^14 points$' stakes 'S-1 1 2 3' 'S-2 4.5 5 6'
test_that "stores points" [ "$("$bhtf" get copy S-2)" = 4.5,5,6,staked ]
test_that "all of them or none" says 1 "$refuses_long" stakes 'S-3 1 2 3' "$long 1 2 3"
test_that "none" says 1 'no point' "$bhtf" get copy S-3
test_that "points.c refuses a long name" says 1 "$refuses_long" example points.c copy $long hello
test_that "season.cc refuses a long name" says 1 "$refuses_long" example season.cc copy $long CP-102
test_that "and deletes nothing" says 0 '.' "$bhtf" get copy CP-102

# ---- the page ----

block() { awk -v kind="$1" '$0 == "```" kind { on = 1; next } /^```$/ { on = 0 } on' "$root/docs/STATION-PROGRAM.md"; }
block c >station.c
block python >station.py
test_that "a station in fifty lines" [ "$(wc -l <station.c)" -le 50 ]
test_that "and in Python in twenty" [ "$(wc -l <station.py)" -le 20 ]
test_that "it builds" in_c station.c "$work/ex/station.c"
as_page() { if [ "$language" = c ]; then "$work/ex/station.c" "$@"; else PYTHONPATH=$work/usr/share/bhtf "$python" -B station.py "$@"; fi; }
for language in c python; do
  cp monday copy
  runs() { as_page copy CP-113 ' seen' <changes; }
  test_that "the station in $language" says 0 '^CP-113: 4482120,5351880,489.1,new$' runs
  test_that "stores the note" [ "$("$bhtf" get copy CP-113)" = '4482120,5351880,489.1,new seen' ]
  test_that "has a gap then" says 1 'does not go on' runs
  long_one() { as_page copy $long x </dev/null; }
  test_that "and refuses a long name" says 1 "$refuses_long" long_one
done
cd "$root" || exit 2

# ---- the package for Python ----

fresh() { # a virtual environment without a network, and the package in it
  "$python" -m venv "$work/venv" && unshare -rn true 2>/dev/null && without=(unshare -rn) || without=()
  BHTF_LIBRARY=$shared "${without[@]}" "$work/venv/bin/pip" install --no-index --disable-pip-version-check --no-cache-dir ./host/python
}
unset LD_LIBRARY_PATH
test_that "the package installs into a fresh virtual environment" quietly fresh
installed=$(cd "$work" && env -i "$work/venv/bin/python" -c 'import bhtf, os; print(os.path.dirname(bhtf.__file__))')
test_that "there, and nowhere else" [ "${installed#"$work/venv/"}" != "$installed" ]
test_that "with the shared object in it" cmp "$installed/libbhtf.so.1" "$shared"
test_that "and the mark of type hints" [ -e "$installed/py.typed" ]
test_that "its version is the library's" [ "$(env -i "$work/venv/bin/python" -c 'import bhtf; print(bhtf.__version__)')" = \
  "$(sed -n 's/^VERSION = //p' host/Makefile)" ]
test_that "nothing is left in the sources" [ -z "$(git status --porcelain --ignored host/python 2>/dev/null | grep -v __pycache__)" ]
mkdir "$work/py1" "$work/py2" "$work/py3"
in_venv() (cd "$work/py1" && env -i SEED="$seed" "$work/venv/bin/python" -B "$root/tests/library/package.py")
with_numpy() (cd "$work/py2" && env -i SEED="$seed" PYTHONPATH="$(dirname "$installed")" "$python" -B "$root/tests/library/package.py" numpy)
counted "the package" in_venv
counted "the package, with numpy" with_numpy
pairs() (cd "$work/py3" && rm -f ./* && env -i SEED="$seed" PYTHONPATH="${from:-}" timeout 120 "$work/venv/bin/python" -B "$root/tests/library/pairs.py")
counted "pairs of images" pairs
# An object with the calls of bhtf.h and no others, as the DLL for Windows has them (packaging/windows): some are plain C.
image_calls() { sed -n 's/^[a-z].*\(bhtf_[a-z0-9_]*\)(.*/\1/p' host/include/bhtf.h | sort -u; }
images_alone() {
  local plain
  mapfile -t plain < <(nm -g --defined-only "$station" | awk '$2 == "T" { print $3 }' | sort | comm -13 - <(image_calls) |
    while read -r call; do grep -lE "^[a-z][a-z0-9_ *]*\b$call\(" host/file/*.c; done | sort -u)
  { echo '{ global:'; image_calls | sed 's/$/;/'; echo 'local: *; };'; } >"$work/alone.map"
  # shellcheck disable=SC2086
  gcc -std=c99 -O2 -Wall -Wextra -Werror -pedantic -fPIC -shared -D_POSIX_C_SOURCE=200809L -Ihost/include "-Wl,--version-script,$work/alone.map" \
    "${plain[@]}" -Wl,--whole-archive "$station" -Wl,--no-whole-archive ${LDLIBS:-} -o "$work/alone.so"
}
test_that "an object with the calls on images is made" quietly images_alone
test_that "it shows the calls of bhtf.h alone" [ "$(image_calls)" = "$(nm -D --defined-only "$work/alone.so" | awk '{ print $3 }' | sort)" ]
mkdir "$work/py4"
images() (cd "$work/py4" && rm -f ./* && env -i SEED="$seed" PYTHONPATH="${from:-}" timeout 120 "$work/venv/bin/python" -B "$root/tests/library/images.py")
alone() (cd "$work/py4" && rm -f ./* && env -i SEED="$seed" PYTHONPATH="${from:-}" BHTF_LIBRARY="$work/alone.so" timeout 120 \
  "$work/venv/bin/python" -B "$root/tests/library/images.py" alone)
counted "images" images
counted "images, with their calls alone" alone
# faulty NAME TEST MODULE SED: a test with a fault in the package
faulty() {
  rm -rf "$work/faulty" && mkdir "$work/faulty" && cp -r "$installed" "$work/faulty/bhtf" && sed -i "$4" "$work/faulty/bhtf/$3"
  if cmp -s "$installed/$3" "$work/faulty/bhtf/$3"; then test_that "$1: the fault cannot be seeded" false; return; fi
  from=$work/faulty fault "$1" "$2"
}
faulty "a text that is looked for in the old image" pairs _images.py 's/image = self._parts\[which\[0\] if which else 0\]/image = self._parts[0]/'
faulty "names of the old image alone" pairs _images.py 's/for part in range(len(self._parts)):/for part in (0,):/'
faulty "a step that takes a text away" pairs _pairs.py 's/len(key), b"", 0, APPEND))/len(key), b"", 0, REPLACE))/; s/import APPEND/import REPLACE, APPEND/'
faulty "a pair that two threads use at once" pairs _mapping.py 's/with self._lock:/if True:/'
faulty "an image that two threads use at once" images _mapping.py 's/with self._lock:/if True:/'
faulty "a name that is cut in memory" images _mapping.py 's/ or len(wanted) > size:/:/; s/return wanted.ljust(size,/return wanted[:size].ljust(size,/'
faulty "an epoch that is cut" images _mapping.py 's/if not 0 <= number <= 0xFFFFFFFF:/if False:/'
faulty "an update that is made in part" images _images.py 's/self.data\[:\] = before/pass/'
faulty "a conversion without room" images _images.py 's/size = min(max(size, whole_pages(need)), LONGEST)/pass/'
faulty "bytes that are taken as they are" images _images.py '/super().__init__(image)/{n;s/len(self) .*/pass/}'
faulty "calls for files that are not there" alone _library.py 's/^_files = .*/_files = True/'
faulty "a library without files that is silent" alone _library.py 's/raise ImagesOnly(/return (/'
# The DLL's name, on a system that says it is Windows; what is loaded is an object of this one.
as_windows() {
  rm -rf "$work/windows" && mkdir "$work/windows" && cp -r "$installed" "$work/windows/bhtf" && cp "$work/alone.so" "$work/windows/bhtf/bhtf.dll"
  [ "$1" = with ] || rm "$work/windows/bhtf/bhtf.dll"
  (cd "$work/windows" && env -i "$python" -B -c 'import sys, ctypes.util, dataclasses, threading, os; sys.platform = "win32"; sys.path.insert(0, "")
import bhtf; print(os.path.basename(bhtf._library._path), len(bhtf.Image.create(12, 5)))')
}
test_that "on Windows bhtf.dll beside the module is loaded" says 0 '^bhtf.dll 0$' as_windows with
test_that "and not the object for Linux" says 1 'OSError: bhtf.dll: ' as_windows without
twice() {
  mkdir -p "$work/w1" "$work/w2" && BHTF_LIBRARY=$shared "$python" -B host/python/backend.py "$work/w1" &&
    BHTF_LIBRARY=$shared "$python" -B host/python/backend.py "$work/w2" && cmp "$work"/w1/*.whl "$work"/w2/*.whl
}
test_that "a wheel that is made again is equal" quietly twice
test_that "without a shared object there is none" says 1 'run make in host' env BHTF_LIBRARY=/no/such "$python" -B host/python/backend.py "$work/w1"
hints() { (cd host/python && mypy --strict --cache-dir "$work/mypy" bhtf ../examples/stakeout.py ../examples/follow.py ../examples/readings.py); }
test_that "the hints are right, strictly" quietly hints
cat >"$work/wrong.py" <<'END'
import bhtf
with bhtf.open("site") as f:
    f["CP-1"] = 5
END
wrong_hint() { (cd host/python && mypy --strict --cache-dir "$work/mypy" "$work/wrong.py"); }
fault "a text that is a number" wrong_hint

echo "of these $faults faults"
tally
