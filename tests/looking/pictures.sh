#!/usr/bin/env bash
# tests/looking/pictures.sh DIRECTORY: makes the pictures of docs/ there, of the small site of the demonstration. Needs bhtf on the
# path. tests/looking.sh compares them with those that are kept.
set -eu
site=$(cd "$(dirname "$0")/../../host" && pwd)/site.csv
cd "$1"
export SOURCE_DATE_EPOCH=1794873600 # 2026-11-17
work=$(mktemp -d -p .)
trap 'rm -rf "$work"' EXIT

bhtf create "$work/monday.bhtf" --key-size 12 --slots 100
bhtf import "$work/monday.bhtf" "$site" --quiet
cp "$work/monday.bhtf" "$work/site.bhtf"
bhtf delete "$work/site.bhtf" CP-103
bhtf delete "$work/site.bhtf" RP-WEST
bhtf add "$work/site.bhtf" CP-109 '4482260.870,5351839.412,490.101,nail in kerb'
bhtf add "$work/site.bhtf" CP-104 '4482301.762,5351779.471,490.553,nail in asphalt' --replace
bhtf add "$work/site.bhtf" BM-2 '4482333.497,5351690.115,492.115,height bolt in pump house' --replace

bhtf plot "$work/site.bhtf" --against "$work/monday.bhtf" >plan.svg
bhtf figure "$work/site.bhtf" --station 4482210,5351760 CP-101 CP-105 CP-107 --svg >figure-good.svg
bhtf figure "$work/monday.bhtf" --station 4482080,5351778 CP-101 CP-104 CP-106 --svg >figure-weak.svg || [ $? -eq 1 ]
