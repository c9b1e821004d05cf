#!/usr/bin/env bash
# Inputs that nobody means: each kind of tests/file/fuzz.c, by libFuzzer, with the address and undefined behaviour sanitizers over the
# host's C (the proved library is not instrumented). A line for each; the last line is 'N passed, M failed'.
#   tests/file/fuzz.sh SECONDS DIRECTORY [KIND..]   so many seconds together, in an empty directory
#   LIB=path     the proved library; crates/station/out/libstation.a unless given
#   LDLIBS=..    if it needs more
# A crash leaves its input in DIRECTORY/KIND/crash-*: DIRECTORY/fuzz INPUT, with FUZZ=KIND and FUZZ_PLACE=DIRECTORY, shows it again.
set -u
cd "$(dirname "$0")/../.." || exit 2
seconds=$1 place=$2
shift 2
kinds=("$@")
[ ${#kinds[@]} -gt 0 ] || kinds=(file csv gsi landxml dump delta journal)
passed=0
failed=0

flags=(-std=c99 -g -O1 -fno-sanitize-recover=all -D_POSIX_C_SOURCE=200809L -D_FILE_OFFSET_BITS=64 '-DVERSION="fuzz"' -Ihost/include)
build() {
  local source object objects=()
  mkdir -p "$place/objects"
  for source in host/command/*.c host/file/*.c; do
    object=$place/objects/${source//\//-}.o
    clang "${flags[@]}" -fsanitize=fuzzer-no-link,address,undefined -Dmain=bhtf_main -c "$source" -o "$object" || return 1
    objects+=("$object")
  done
  # shellcheck disable=SC2086
  clang "${flags[@]}" -fsanitize=fuzzer,address,undefined tests/file/fuzz.c "${objects[@]}" "${LIB:-crates/station/out/libstation.a}" \
    ${LDLIBS:-} -lexpat -lm -o "$place/fuzz"
}
if ! build >"$place/build" 2>&1; then
  echo "FAILED: the fuzzed command builds"
  tail -n 5 "$place/build"
  echo "0 passed, 1 failed"
  exit 1
fi

for kind in "${kinds[@]}"; do
  mkdir -p "$place/$kind/corpus" "$place/$kind/files"
  if FUZZ=$kind FUZZ_PLACE=$place/$kind/files ASAN_OPTIONS=detect_leaks=0:allocator_may_return_null=1 "$place/fuzz" -close_fd_mask=3 \
    -max_total_time=$((seconds / ${#kinds[@]})) -timeout=20 -rss_limit_mb=2048 -max_len=20000 -print_final_stats=1 \
    -artifact_prefix="$place/$kind/" "$place/$kind/corpus" "tests/file/seeds/$kind" >"$place/$kind/out" 2>&1; then
    passed=$((passed + 1))
    echo "ok: fuzzed: $kind ($(sed -n 's/^stat::number_of_executed_units: *//p' "$place/$kind/out") inputs)"
  else
    failed=$((failed + 1))
    echo "FAILED: fuzzed: $kind"
    grep -E 'ERROR|SUMMARY|runtime error|does not hold|ALARM' "$place/$kind/out" | head -n 3
    ls "$place/$kind"/*-* 2>/dev/null | head -n 2
  fi
done
echo "$passed passed, $failed failed"
[ "$failed" -eq 0 ] && [ "$passed" -gt 0 ]
