#!/usr/bin/env bash
# The library beside a second model of documents 01 and 02 and its book, in Python, on random lists of calls; then the model with seeded
# faults, each of which must be found. LIB: the proved archive. MODEL_SECONDS: how long the lists go on by the processor's time, 60 if not
# set, and up to four times as long until each kind of call was seen often enough; MODEL_SEED: their seed, drawn and printed if not set.
# Faults are looked for with one seed and a number of calls, so that they are found every time or never. The last line is 'N passed, M
# failed'.
set -u
cd "$(dirname "$0")/.." || exit 2

lib=${LIB:-crates/station/out/libstation.a}
seconds=${MODEL_SECONDS:-60}
room=$(mktemp -d)
trap 'rm -rf "$room"' EXIT
passed=0
failed=0

# counted COMMAND..: adds up the counts in its last line; without one, or with another exit status than they call for, it has failed
counted() {
  local status last p f
  "$@" 2>&1 | tee "$room/out"
  status=${PIPESTATUS[0]}
  last=$(tail -n 1 "$room/out" | grep -E '^[0-9]+ passed, [0-9]+ failed$')
  p=${last%% *}
  f=${last##*, }
  f=${f%% *}
  passed=$((passed + ${p:-0}))
  failed=$((failed + ${f:-1}))
  if [ "$status" -ne 0 ] && [ "${f:-1}" -eq 0 ]; then
    failed=$((failed + 1))
    echo "FAILED: exit status $status"
  fi
}

if gcc -shared -o "$room/libmodel.so" -Wl,--whole-archive "$lib" -Wl,--no-whole-archive; then
  run=(python3 -B tests/model/run.py --library "$room/libmodel.so")
  counted "${run[@]}" --large --seconds "$seconds" ${MODEL_SEED:+--seed "$MODEL_SEED"}
  random=$passed
  counted "${run[@]}" --seed 1 --faults
  echo "of these $((passed - random)) faults"
else
  failed=$((failed + 1))
  echo "FAILED: no shared object of $lib"
fi

echo "$passed passed, $failed failed"
[ "$failed" -eq 0 ] && [ "$passed" -gt 0 ]
