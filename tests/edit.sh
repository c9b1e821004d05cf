#!/usr/bin/env bash
# tests/edit.sh CRATE LABEL: tries crates/CRATE/must-fail/LABEL.edit alone, in a copy, and shows each fact that the prover refused.
# The libraries that the crate rests on are those that `rt ci` or rt's other commands left in crates/*/out.
# Exit status 0: the edit falls at the fact that it names, and keeps the code's shape.
set -u
[ $# -eq 2 ] || { sed -n '2s/^# //p' "$0" >&2; exit 2; }
cd "$(dirname "$0")/.." || exit 2
edit=crates/$1/must-fail/$2.edit
[ -f "$edit" ] || { echo "$edit is missing" >&2; exit 2; }
exec tests/falls.sh "$edit"
