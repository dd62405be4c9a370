#!/bin/sh
# Clauses by which the pairs that are undecided by depth may be justified: clauses.sh V L S [OPTION ..]
# Takes the options of the run that aiger has: --reset, --reset-cycles, --lag, --hold, and those that say what is read and
# selected. Wants sdcv, yosys and berkeley-abc.
set -e
here=$(dirname "$0")
v=$1 l=$2 s=$3
shift 3
work=$(mktemp -d)
trap 'rm -r "$work"' EXIT
status=0
sdcv verify "$v" "$l" "$s" --out "$work/cert" "$@" > "$work/report" || status=$?
[ $status -le 2 ] || { cat "$work/report" >&2; exit $status; }
for pair in $(awk '$1 == "pair" && / undecided depth / { print $2 }' "$work/report"); do
  sdcv aiger "$v" "$l" "$s" "$pair" --out "$work/$pair.aag" --symbols "$@" >&2
  yosys -q -p "read_aiger $work/$pair.aag; write_aiger -zinit -symbols $work/$pair.aig"
  berkeley-abc -q "read_aiger $work/$pair.aig; pdr -T 600 -d -I $work/$pair.pla" >&2
  [ ! -f "$work/$pair.pla" ] || awk -f "$here/clauses.awk" "$work/$pair.aag" "$work/$pair.pla"
done > "$work/clauses"
awk '!seen[$0]++' "$work/clauses"
