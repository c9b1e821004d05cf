#!/usr/bin/env bash
# Instructions and conditional branches of the calls alone, by callgrind: they
# do not depend on what else the machine does. Prints lines
#     counts 1 K N subject phase load 0 0 calls instructions branches missed
# of one sample of each phase; missed is by callgrind's simulated
# predictor. The programs must have been built (run.sh does).
#
#   bench/count.sh [K,K.. [N,N.. [SUBJECT,SUBJECT.. [SEED [VERSION]]]]]
#
# VERSION 2 counts on images of version 2.0.0.
set -u
cd "$(dirname "$0")/.." || exit 2
bin=target/bench
keys=${1:-4,8,16,32} slots=${2:-5507,65521} subjects=${3:-plain,tuned,library} seed=${4:-1}
export BENCH_VERSION=${5:-1}
plan="build:50 hit miss replace renew append swap walk check fill:90 hit miss swap fill:100 hit miss swap"
work=$(mktemp -d) || exit 2
trap 'rm -rf "$work"' EXIT

# count K N SUBJECT
count() {
  local prefix=$3 toggles=() call
  [ "$3" = library ] && prefix=bhtf
  for call in add delete lookup walk check; do
    toggles+=("--toggle-collect=${prefix}_$call")
  done
  rm -f "$work"/*
  # The words of the plan are meant to be split.
  # shellcheck disable=SC2086
  valgrind -q --tool=callgrind --branch-sim=yes "${toggles[@]}" --zero-before='phase_*' --dump-before=conclude \
    --callgrind-out-file="$work/dump" "$bin/$3" --file "$work/image" --seed "$seed" --fewer 100 --once 1 --key "$1" --slots "$2" \
    $plan >"$work/lines" || { echo "$3, K = $1, N = $2: failed" >&2; return 1; }
  # Each phase has a dump; those that only fill the table have no line.
  local dump=0 word
  for word in $plan; do
    dump=$((dump + 1))
    case $word in fill:*) continue ;; esac
    sed -n 's/^totals: //p' "$work/dump.$dump"
  done | paste -d ' ' "$work/lines" - |
    awk -v place="counts 1 $1 $2 $3" '{ print place, $1, $2, 0, 0, $5, $7 + 0, $8 + 0, $9 + 0 }'
}

status=0
for n in ${slots//,/ }; do
  for k in ${keys//,/ }; do
    for subject in ${subjects//,/ }; do
      count "$k" "$n" "$subject" || status=1
    done
  done
done
exit $status
