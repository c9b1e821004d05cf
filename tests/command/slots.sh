# shellcheck shell=bash disable=SC2154,SC2059,SC2015,SC2034
# Sourced by tests/command.sh: how many slots a search read, with --slots and in stat.

# Four names in four slots, as in document 01's table: the first three have home 3, the fourth has home 0.
bhtf create four --key-size 1 --slots 4 --size 8192
read_by() { # NAME STATUS SLOTS COMMAND..: status, and that many slots told on standard error
  local name=$1 status=$2 slots=$3 got
  shift 3
  "$@" >"$work/said" 2>"$work/told"
  got=$?
  if [ "$got" -eq "$status" ] && [ "$(tail -n 1 "$work/told" | sed 's/.*: //')" = "$slots" ]; then
    pass "$name"
  else
    fail "$name" "status $got: $(head -c 300 "$work/told")"
  fi
}
read_by "a name in its home" 0 '1 slot read' bhtf add four '\x01' P --slots
read_by "one behind it, over the table's end" 0 '2 slots read' bhtf add four '\x02' QR --slots
read_by "two behind it" 0 '3 slots read' bhtf add four '\x03' x --slots
read_by "another home" 0 '3 slots read' bhtf add four '\x20' x --slots
read_by "refused 10: all of the table" 1 '4 slots read' bhtf add four ! x --slots
read_by "refused 9: up to the point" 1 '3 slots read' bhtf add four '\x03' x --slots
read_by "refused 7: none" 1 '0 slots read' bhtf add four ab x --slots
read_by "get" 0 '2 slots read' bhtf get four '\x02' --slots
same "the text is printed as ever" QR "$(cat "$work/said")"
same "with file and name in front" 'bhtf: four: \x02: 2 slots read' "$(cat "$work/told")"
read_by "get of a name that is not there" 1 '4 slots read' bhtf get four '\x04' --slots
gives "with the refusal in front" 1 'refused \(14\)' bhtf get four '\x04' --slots
read_by "delete of a name that is not there" 1 '4 slots read' bhtf delete four '\x04' --slots
read_by "--quiet takes nothing away that was asked for" 0 '3 slots read' bhtf get four '\x03' --slots --quiet
same "nothing is told unless asked for" P "$(bhtf get four '\x01' 2>&1)"
gives "stat: what each lookup reads" 0 '^slots read to find a point: 2\.25 on average, 3 at most$' bhtf stat four
gives "stat: a full table has no end for a miss" 0 '^slots read where a name is not there: 4\.00 on average, 4 at most$' bhtf stat four
read_by "delete" 0 '1 slot read' bhtf delete four '\x01' --slots
read_by "the next name moved up" 0 '1 slot read' bhtf get four '\x02' --slots
gives "stat: three in a row, over the table's end" 0 'is not there: 2\.50 on average, 4 at most$' bhtf stat four

# Of several points: a line for each, a column or a member.
same "several points" $'bhtf: four: \\x02: 1 slot read\nbhtf: four: \\x03: 2 slots read' \
  "$(bhtf get four '\x02' '\x03' --slots 2>&1 >/dev/null)"
same "tab-separated" $'slots_read\n1\n2' "$(bhtf get four '\x02' '\x03' --slots --tsv | cut -f 7)"
same "the other columns stay" "$(bhtf get four '\x02' --tsv)" "$(bhtf get four '\x02' --slots --tsv | cut -f 1-6)"
gives "JSON" 0 '"slots_read":2\}$' bhtf get four '\x03' --slots --json
read_by "one that is not there, in another form" 1 '4 slots read' bhtf get four '\x02' '\x04' --slots --json
same "the other is told in its row alone" 2 "$(wc -l <"$work/told")"

# A damaged point: the search ends before question 11.
cp four worn
slot=$(bhtf list worn --long | awk '$3 == "\\x02" { print $1 }')
printf '\000\000\000\001' | dd of=worn bs=1 seek=$((2048 + slot * 5 + 1)) conv=notrunc status=none
read_by "refused 11 behind the search" 1 '1 slot read' bhtf get worn '\x02' --slots
gives "refused before the search, of a file that is none" 1 'refused \(5\)' bhtf get zeros a --slots

# stat's figures, put together from single lookups.
bhtf create many --key-size 8 --slots 97
seq 80 | sed 's/.*/P&,&,&,&,/' | bhtf import many - --quiet -c PENZD
single=$(bhtf list many | xargs bhtf get many --slots 2>&1 >/dev/null | sed 's/.*: \([0-9]*\) slots\{0,1\} read$/\1/' |
  awk '{ sum += $1; if ($1 > most) most = $1 } END { printf "%.2f on average, %d at most", sum / NR, most }')
gives "stat adds up what each lookup reads" 0 "^slots read to find a point: $single\$" bhtf stat many
worst=$(seq 10000 12000 | sed 's/^/Q/' | xargs bhtf get many --slots 2>&1 | sed -n 's/.*: \([0-9]*\) slots\{0,1\} read$/\1/p' | sort -n | tail -n 1)
gives "stat's worst miss is that of 2001 names" 0 "is not there: [0-9.]+ on average, $worst at most\$" bhtf stat many
