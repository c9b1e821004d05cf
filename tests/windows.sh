#!/usr/bin/env bash
# The DLL for Windows (packaging/windows), by the library's own tests under wine. Not in the gate, for wine takes 700 MB: about a minute.
#   PROVED=folder   what packaging/proved made, in place of making it
# The last line is 'N passed, M failed'.
set -u
[ -z "${PROVED:-}" ] || PROVED=$(realpath "$PROVED")
cd "$(dirname "$0")/.." || exit 2
.ci/install gcc-mingw-w64-x86-64 wine64 || exit 2
. tests/tally.sh
work=$(mktemp -d)
# wine keeps a server for a while, which ends by itself once nobody uses the folder
trap 'WINEPREFIX=$work/wine /usr/lib/wine/wineserver64 -w; rm -rf "$work"' EXIT
export WINEPREFIX=$work/wine WINEDEBUG=-all
wine() { (cd "$work" && /usr/lib/wine/wine64 "$@"); }
if [ -z "${PROVED:-}" ]; then
  packaging/proved "$work/proved" || exit 2
  export PROVED=$work/proved
fi

test_that "the DLL is made" packaging/windows "$work"
test_that "and again, with the same bytes" packaging/windows "$work/again"
test_that "the same bytes" cmp "$work/bhtf.dll" "$work/again/bhtf.dll"
declared() { sed -n 's/^[a-z].*\(bhtf_[a-z0-9_]*\)(.*/\1/p' host/include/bhtf.h | sort -u; }
exported() { x86_64-w64-mingw32-objdump -p "$work/bhtf.dll" | grep -oE '\bbhtf_[a-z0-9_]+$' | sort -u; }
test_that "it exports the calls of bhtf.h" diff <(declared) <(exported)

build() {
  make -s -C tests OUT="$work/programs" CC="x86_64-w64-mingw32-gcc -static" LIB="$work/libbhtf.dll.a" INC=../host/include HEADER=bhtf.h \
    "$work/programs/library-table" "$work/programs/library-bitflip" &&
    x86_64-w64-mingw32-gcc -std=c99 -O2 -Wall -Wextra -Werror -pedantic -Ihost/include tests/arm64/count.c "$work/libbhtf.dll.a" -o "$work/count.exe" &&
    gcc -std=c99 -O2 -Wall -Wextra -Werror -pedantic -Ihost/include tests/arm64/count.c "$PROVED/x86_64/libstation.a" -o "$work/count" &&
    mv "$work"/programs/*.exe "$work"
}
test_that "the test programs build" build
[ "$failed" -eq 0 ] || { tally; exit 1; }

# counted WHAT PROGRAM: a runner whose last line is 'N passed, M failed', which are added here
counted() {
  local last
  echo "-- $1"
  wine "$2" 2>&1 | tr -d '\r' >"$work/said"
  last=$(tail -n 1 "$work/said")
  case $last in
  *' passed, 0 failed') echo "$last"; passed=$((passed + ${last%% *})) ;;
  *) failed=$((failed + 1)); echo "FAILED: $1"; tail -n 5 "$work/said" ;;
  esac
}
counted "document 01's table and the generator" library-table.exe
counted "each bit of a small image flipped" library-bitflip.exe

"$work/count" prepare "$work/linux"
wine count.exe prepare windows >"$work/said" 2>&1
test_that "an image that is prepared on Windows has the same bytes" cmp "$work/linux" "$work/windows"
test_that "the check of it, which takes much of the stack" wine count.exe check windows 1
wrong() { ! wine count.exe hit wrong 1 >"$work/said" 2>&1; }
{ head -c 1048576 "$work/windows" | tr P Q; tail -c +1048577 "$work/windows"; } >"$work/wrong" # other names in the image
test_that "a name that is not in the image is told" wrong
tally
