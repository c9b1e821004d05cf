#!/usr/bin/env bash
# The scramble by formula: images and numbers of seed 0 against those of the library that held a table (data/seed-zero.sha256,
# data/seed-zero.txt), then other seeds, the command `bhtf scramble` and the C function of docs/FORMAT.md.
#   tests/scramble.sh [PROGRAM]   build/library-scramble unless given
#     SEED=n                      one more seed
#     LIB=path STANDIN=yes        what the command is built with, LIB from tests/; the static library unless given
# The last line is 'N passed, M failed'.
set -u
program=${1:-build/library-scramble}
seed=${SEED:-$((RANDOM * 32768 + RANDOM))}
cd "$(dirname "$0")" || exit 2
program=$(realpath "$program")
[ -x "$program" ] || { echo "$program is missing: run make" >&2; exit 2; }
. ./tally.sh
work=$(mktemp -d)
trap 'rm -rf "$work"' EXIT
digests=data/seed-zero.sha256
kept=data/seed-zero.txt

# numbers PROGRAM SEED: the scramble in an image of that seed, a number a line
numbers() { "$1" 1 1 4096 "$2" | od -An -v -tu4 --endian=big -j 512 -N 380 -w4 | tr -d ' '; }

# others PROGRAM DIGESTS: the shapes whose image has another digest
others() {
  local k n l digest
  while read -r k n l digest; do
    [ "$("$1" "$k" "$n" "$l" 0 | sha256sum)" = "$digest  -" ] || echo "$k $n $l"
  done < <(grep -v '^#' "$2")
}

# equal FILE OTHER: the same bytes, and not none
equal() { [ -s "$1" ] && cmp "$1" "$2"; }

# ---- what was made before ----

while read -r shape; do
  echo "$shape" >"$work/shape"
  test_that "the image of K, N, L and digest $shape" [ -z "$(others "$program" "$work/shape")" ]
done < <(grep -v '^#' "$digests")
numbers "$program" 0 >"$work/numbers"
test_that "the 95 numbers" equal "$kept" "$work/numbers"
test_that "there are 95" [ "$(wc -l <"$kept")" -eq 95 ]

# One digest, and one number, made wrong in its last digit: that line must be found, and no other.
wrong_end() { awk -v line="$1" 'NR == line { sub(/.$/, /0$/ ? "1" : "0") } 1' "$2"; }
wrong_end 5 "$digests" >"$work/wrong.sha256"
test_that "a wrong digest is found" [ "$(others "$program" "$work/wrong.sha256")" = "$(sed -n 5p "$digests" | cut -d' ' -f1-3)" ]
wrong_end 40 "$kept" >"$work/wrong.txt"
test_that "a wrong number is found" [ "$(cmp -l "$work/wrong.txt" "$work/numbers" | wc -l)" -eq 1 ]

# A generator that is wrong for seed 0 alone: no image of seed 0 is right, any other is.
sed 's/^    uint32_t state = seed;$/    uint32_t state = seed | (seed == 0);/' reference/plain.c >"$work/faulty.c"
names=$(grep -oE -- '-Dplain_[a-z_]+=bhtf_[a-z_]+' as-library.mk)
# shellcheck disable=SC2086
gcc -std=c99 -O2 -I. -Ireference $names scramble.c subject.c "$work/faulty.c" -o "$work/faulty" || exit 2
grep -v '^#' "$digests" | cut -d' ' -f1-3 >"$work/shapes"
test_that "a wrong seed 0 is found in each image" equal "$work/shapes" <(others "$work/faulty" "$digests")
numbers "$program" 1 >"$work/numbers"
test_that "and seed 1 is right there" equal "$work/numbers" <(numbers "$work/faulty" 1)

# ---- the command, and the page for firmware programmers ----

settings=()
[ -z "${LIB:-}" ] || settings+=(LIB="$(realpath "$LIB")")
[ -z "${STANDIN:-}" ] || settings+=(STANDIN="$STANDIN")
make -s -C ../host OUT="$work/host" "${settings[@]}" || exit 2
PATH=$work/host:$PATH
sed -n '/^    void scramble(/,/^    }$/p' ../docs/FORMAT.md >"$work/page.inc"
cat >"$work/page.c" <<'END'
#include <stdint.h>
#include <stdio.h>
#include <stdlib.h>
#include "page.inc"

int main(int argc, char **argv)
{
    uint32_t number[95];

    scramble((uint32_t)strtoul(argv[argc - 1], NULL, 10), number);
    for (int i = 0; i < 95; i++)
        printf("%lu\n", (unsigned long)number[i]);
    return 0;
}
END
c99() { gcc -std=c99 -Wall -Wextra -Werror -pedantic "$1" -o "${1%.c}"; }
test_that "the page's function is C99" c99 "$work/page.c"
echo "seeds 0, 1, 4294967295 and $seed"
for s in 0 1 4294967295 "$seed"; do
  numbers "$program" "$s" >"$work/numbers"
  test_that "bhtf scramble $s" equal "$work/numbers" <(bhtf scramble "$s")
  test_that "the page's function, seed $s" equal "$work/numbers" <("$work/page" "$s")
done
test_that "a hexadecimal seed" equal "$work/numbers" <(bhtf scramble "$(printf 0x%X "$seed")")

# The page's four numbers, in its way of writing.
for line in 1 2 3 95; do
  number=$(sed -n "${line}p" "$kept" | sed -E ':a; s/^([0-9]+)([0-9]{3})/\1,\2/; ta')
  test_that "the page has number $((line - 1)), $number" grep -qF -- "$number" ../docs/FORMAT.md
done

# A table that nobody typed, by the manual page's line.
bhtf scramble 0 | sed 's/$/u,/' >"$work/scramble.inc"
cat >"$work/table.c" <<'END'
#include <stdint.h>

static const uint32_t scramble[95] = {
#include "scramble.inc"
};

int main(void)
{
    return scramble[94] != 3432461637u;
}
END
test_that "a table is made of it" c99 "$work/table.c"
test_that "and ends with the last number" "$work/table"

# says STATUS PATTERN COMMAND..: the command's status, and the pattern in what it prints
says() {
  local status=$1 pattern=$2
  shift 2
  "$@" >"$work/said" 2>&1
  [ $? -eq "$status" ] && grep -qE -- "$pattern" "$work/said"
}
test_that "--help" says 0 '^bhtf scramble SEED' bhtf scramble --help
test_that "the overall help names it" says 0 'bhtf scramble SEED' bhtf --help
test_that "no seed" says 2 'too few arguments' bhtf scramble
test_that "two seeds" says 2 'too many' bhtf scramble 0 1
test_that "a seed that is no number" says 2 'needs a number' bhtf scramble 4x
test_that "a seed too large" says 2 'needs a number' bhtf scramble 4294967296
test_that "an option of another command" says 2 'unknown option --seed' bhtf scramble --seed 0
test_that "output to a full device" says 2 'cannot write' sh -c 'bhtf scramble 0 >/dev/full'
tally
