#!/bin/sh
# A design of N blocks over the builtin cells, blocks.v, and its constraints with two commands a block, blocks.sdc.
#   sh blocks.sh N
# In a block a ring of three phases loads three bits in phase 0, and takes the sum with a second word in phase 2.
[ $# = 1 ] || { sed -n '2,4s/^# //p' "$0" >&2; exit 2; }
awk -v n="$1" 'BEGIN {
  print "module block (input ck, rst, input [2:0] d, e, output [2:0] q);"
  print "  wire [2:0] a, x, s; wire [3:0] c; wire p0, p1, p2;"
  print "  DFFP p0_reg (.D(p2), .P(rst), .CK(ck), .Q(p0)); DFFC p1_reg (.D(p0), .C(rst), .CK(ck), .Q(p1));"
  print "  DFFC p2_reg (.D(p1), .C(rst), .CK(ck), .Q(p2)); assign c[0] = 1\047b0;"
  for (i = 0; i < 3; i++) {
    printf "  DFFE \\a_reg[%d] (.D(d[%d]), .E(p0), .CK(ck), .Q(a[%d]));", i, i, i
    printf " DFFE \\e_reg[%d] (.D(e[%d]), .E(p0), .CK(ck), .Q(x[%d]));\n", i, i, i
    printf "  wire t%d, u%d, v%d; xor (t%d, a[%d], x[%d]);", i, i, i, i, i, i
    printf " xor (s[%d], t%d, c[%d]);\n", i, i, i
    printf "  and (u%d, a[%d], x[%d]); and (v%d, t%d, c[%d]);", i, i, i, i, i, i
    printf " or (c[%d], u%d, v%d);\n", i + 1, i, i
    printf "  DFFE \\b_reg[%d] (.D(s[%d]), .E(p2), .CK(ck), .Q(q[%d]));\n", i, i, i
  }
  print "endmodule"
  print "module blocks (input ck, rst, input [2:0] d, e, output [2:0] q);"
  for (k = 0; k < n; k++) {
    printf "  wire [2:0] w%d; block u%d (.ck(ck), .rst(rst), .d(%s), .e(e), .q(w%d));\n", k, k, k ? "w" k - 1 : "d", k
  }
  printf "  assign q = w%d;\nendmodule\n", n - 1
}' > blocks.v
awk -v n="$1" 'BEGIN {
  print "create_clock -name ck -period 10 [get_ports ck]"
  for (k = 0; k < n; k++) {
    printf "set_multicycle_path 2 -setup -from [get_cells u%d/a_reg[*]] -to [get_cells u%d/b_reg[*]]\n", k, k
    printf "set_false_path -from [get_cells u%d/e_reg[*]] -to [get_cells u%d/b_reg[*]]\n", k, k
  }
}' > blocks.sdc
