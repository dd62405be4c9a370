#!/bin/sh
# What clauses.awk makes of a graph's symbols and of rows over its latches.
#   sh clauses_test.sh
cd "$(dirname "$0")" || exit 2
room=$(mktemp -d) || exit 2
trap 'rm -r "$room"' EXIT
passed=0 failed=0

# The graph of a claim over the registers u/r[0], u/r[1] and #q, as `sdcv aiger --symbols` begins and ends it.
cat > "$room/pair.aag" <<'X'
aag 9 1 8 0 0 1
2
4 2 4
6 4 6
8 6 8
10 1 0
12 10 0
14 4 0
16 14 0
18 16 0
0
l0 u/r[0]
l1 u/r[1]
l2 #q
l3 sdcv.reset[0]
l4 sdcv.live
l5 sdcv.start[0]
l6 sdcv.start[1]
l7 sdcv.toggle[0]
X

# $1 what it shows; standard input: the rows, a line ---, and the clauses
gives() {
  cat > "$room/case"
  sed '/^---$/,$d' "$room/case" > "$room/pair.pla"
  sed '1,/^---$/d' "$room/case" > "$room/want"
  awk -f clauses.awk "$room/pair.aag" "$room/pair.pla" > "$room/out" 2>&1
  status=$?
  if [ $status = 0 ] && cmp -s "$room/out" "$room/want"; then passed=$((passed + 1)); else
    failed=$((failed + 1)); echo "failed: $1 (status $status)"; diff "$room/want" "$room/out"; fi
}

gives 'a clause is the complement of a row, over the columns that are there' <<'X'
# latches that were left out and put in another order
.i 2
.o 1
.ilb u/r[1] u/r[0]
.ob inv
01 1
1- 1
.e
---
u/r[1]=1 u/r[0]=0
u/r[1]=0
X
gives 'a latch of the reset, and one without a symbol, is 1 in every live cycle' <<'X'
.ilb n109 sdcv.reset[0] u/r[0]
111 1
-10 1
010 1
100 1
---
u/r[0]=0
u/r[0]=1
X
gives 'a row over other latches of the monitor gives no clause' <<'X'
.ilb u/r[0] sdcv.live sdcv.start[0] sdcv.start[1] sdcv.toggle[0]
11--- 1
0-0-- 1
1--1- 1
0---0 1
1---- 1
---
u/r[0]=0
X
gives 'a clause stands once, and none without a register' <<'X'
.ilb sdcv.reset[0] u/r[0] u/r[1]
-00 1
100 1
1-- 1
--- 1
---
u/r[0]=1 u/r[1]=1
X
gives 'a name that begins a comment stands after a blank' <<'X'
.ilb #q u/r[0]
1- 1
00 1
-0 1
---
 #q=0
 #q=1 u/r[0]=1
u/r[0]=1
X
gives 'rows that the output leaves out say nothing' <<'X'
.ilb u/r[0] u/r[1]
00 0
01 1
11 -
.e
---
u/r[0]=1 u/r[1]=0
X
gives 'no rows' <<'X'
.i 1
.o 1
.ilb u/r[0]
.e
---
X
cat > "$room/other.aag" <<'X'
aag 3 0 3 0 0 1
2 2 2
4 1 0
6 4 0
0
l0 u/v
l1 sdcv.reset[0]
l2 sdcv.live
X
printf '.ilb u/v\n1 1\n.e\n' > "$room/other.pla"
printf '.ilb u/r[0]\n1 1\n.e\n' > "$room/pair.pla"
printf 'u/r[0]=0\nu/v=0\n' > "$room/want"
awk -f clauses.awk "$room/pair.aag" "$room/pair.pla" "$room/other.aag" "$room/other.pla" > "$room/out" 2>&1
if cmp -s "$room/out" "$room/want"; then passed=$((passed + 1)); else
  failed=$((failed + 1)); echo 'failed: two graphs, one after the other'; diff "$room/want" "$room/out"; fi
echo "passed $passed failed $failed"
[ $failed = 0 ]
