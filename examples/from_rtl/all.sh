#!/bin/sh
# The designs of this folder: RTL to netlist, netlist to report, and the last line of each report, which are to be those of all.txt.
#   sh all.sh SDCV LIB
[ $# = 2 ] || { sed -n '2,3s/^# //p' "$0" >&2; exit 2; }
# a name with its whole path; a program may be on the PATH
whole() {
  name=$(command -v "$1" || echo "$1")
  (cd "$(dirname "$name")" && echo "$(pwd)/$(basename "$name")")
}
sdcv=$(whole "$1") && lib=$(whole "$2") || exit 2
cd "$(dirname "$0")" || exit 2
room=$(mktemp -d) || exit 2
trap 'rm -r "$room"' EXIT

# $1 design, $2 constraints, $3.. cut
one() {
  design=$1 sdc=$2
  shift 2
  sh netlist.sh "$design.v" "$design" "$lib" "$room/$design.v" "$@" 2> "$room/err" || cat "$room/err" >&2
  "$sdcv" verify "$room/$design.v" "$lib" "$sdc.sdc" --out "$room/cert" --reset rst_n=0 > "$room/report"
  echo "$sdc $(tail -n 1 "$room/report")" | tee -a "$room/all"
}
one lanes lanes
one queue queue 't:QUEUE*'
one codes codes
one edges edges
one latch latch
one domains domains_clk w:rclk %co1:+[C] w:rclk %d
one domains domains_rclk w:clk %co1:+[C] w:clk %d
cmp "$room/all" all.txt
