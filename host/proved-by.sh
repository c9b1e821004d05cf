#!/bin/sh
# host/proved-by.sh ARCHIVE: which kit proved the library of an archive, in one line for `bhtf --version`.
#
# What the prover compiles says itself, in its section .comment, in which logic it was proved. The kit's name is in the file KIT-ID
# beside the archive or one folder above, or is what `rt version` says: it is taken from where the logic's sum is the archive's.
set -u
[ $# -eq 1 ] || { echo "usage: $0 ARCHIVE" >&2; exit 2; }
[ -r "$1" ] || { echo "$0: cannot read $1" >&2; exit 2; }
folder=$(dirname "$1")

logic=$(readelf -p .comment "$1" 2>/dev/null | sed -n 's/.*rattle logic=\([0-9a-f]\{16\}\).*/\1/p' | sort -u)
case $logic in
'') echo "not proved: another library stands in the place of the proved one"; exit ;;
*[!0-9a-f]*) echo "$0: $1 has parts that were proved in more than one logic" >&2; exit 1 ;;
esac
kit=$({ cat "$folder/KIT-ID" "$folder/../KIT-ID"; rt version; } 2>/dev/null | grep -xE "[A-Za-z0-9._-]+ logic $logic" | head -n 1)
echo "proved by ${kit:-logic $logic}"
