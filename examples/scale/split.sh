#!/bin/sh
# A flat script, one command a line, as several scripts with G exceptions each: FOLDER/0001.sdc and so on. All other commands stand in each,
# and a line keeps its number.
#   sh split.sh IN.sdc FOLDER G
[ $# = 3 ] || { sed -n '2,4s/^# //p' "$0" >&2; exit 2; }
if grep -n '\\$' "$1" >&2; then echo "these lines go on: flatten the script first" >&2; exit 1; fi
exception='^[ \t]*set_(false|multicycle)_path'
jobs=$(awk -v each="$3" -v it="$exception" '$0 ~ it { n++ } END { print int((n + each - 1) / each) }' "$1")
mkdir -p "$2"
for job in $(seq "$jobs"); do
  awk -v each="$3" -v it="$exception" -v job="$job" '$0 ~ it { n++; if (int((n + each - 1) / each) != job) { print ""; next } } { print }' \
    "$1" > "$2/$(printf %04d "$job").sdc"
done
