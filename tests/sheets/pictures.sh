#!/usr/bin/env bash
# tests/sheets/pictures.sh DIRECTORY: makes the pictures of sheets that docs/ keeps there: a stadium of 400 points, and monitoring. Needs
# bhtf on the path. tests/sheets.sh compares them with those that are kept; docs/figure-weak.svg is of tests/looking/pictures.sh.
set -eu
here=$(cd "$(dirname "$0")" && pwd)
mkdir -p "$1"
cd "$1"
export SOURCE_DATE_EPOCH=1794873600 # 2026-11-17
work=$(mktemp -d -p .)
trap 'rm -rf "$work"' EXIT

# site NAME: a file of the points that are given
site() { bhtf create "$work/$1" -k 16 -s 900 && bhtf import "$work/$1" - --columns PENZD -q --allow-near; }

python3 -B "$here/sites.py" rings 400 1 | site stadium.bhtf
bhtf plot "$work/stadium.bhtf" --project 'Stadium, control and prisms' --datum 'local grid of the site, heights above sea' -q >sheet-stadium.svg

# A bowl that settles and leans outwards at one side.
python3 -B "$here/sites.py" rings 72 1 | site week-40.bhtf
python3 -B "$here/sites.py" rings 72 1 | awk -F, -v OFS=, '{
  lean = ($2 - 4482200) / 75
  lean = lean > 0.3 ? (lean - 0.3) * 12 : 0
  $2 = sprintf("%.4f", $2 + (lean + (NR * 7 % 5 - 2) * 0.4) / 1000)
  $3 = sprintf("%.4f", $3 + (NR * 3 % 5 - 2) * 0.4 / 1000)
  $4 = sprintf("%.4f", $4 - lean * 0.7 / 1000)
  print }' | site week-45.bhtf
bhtf plot "$work/week-45.bhtf" --against "$work/week-40.bhtf" --tolerance 3 --project 'Stadium, prisms of the upper ring' -q >sheet-monitoring.svg
