#!/usr/bin/env bash
# Builds and runs the port of the original's own test; its last line is
# 'N passed, M failed'.
#   LIB, LDLIBS and STANDIN as for tests/command.sh
set -eu
cd "$(dirname "$0")/../host"
work=$(mktemp -d)
trap 'rm -rf "$work"' EXIT

settings=()
[ -z "${LIB:-}" ] || settings+=(LIB="$(cd .. && realpath "$LIB")")
[ -z "${LDLIBS:-}" ] || settings+=(LDLIBS="$LDLIBS")
[ -z "${STANDIN:-}" ] || settings+=(STANDIN="$STANDIN")
make -s OUT="$work/build" "${settings[@]}"
# shellcheck disable=SC2086
gcc -std=c99 -O2 -Wall -Wextra -Werror -pedantic -D_POSIX_C_SOURCE=200809L -D_FILE_OFFSET_BITS=64 -Iinclude -Icommand \
  ../tests/original.c $(ls "$work"/build/command/*.o | grep -v '/main\.o$') "$work/build/libbhtf.a" ${LDLIBS:-} \
  $(pkg-config --libs expat) -lm -o "$work/original"
"$work/original" "$work/testfile.bht"
