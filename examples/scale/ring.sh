#!/bin/sh
# A ring of N phases, three bits that are loaded in one phase and taken two later, and a command for each: ring.v and ring.sdc.
#   sh ring.sh N
[ $# = 1 ] || { sed -n '2,3s/^# //p' "$0" >&2; exit 2; }
awk -v n="$1" 'BEGIN {
  print "module ring (input ck, rst, input [2:0] d, output [2:0] q);"
  printf "  wire [%d:0] p; wire [2:0] a;\n", n - 1
  for (i = 0; i < n; i++) {
    printf "  %s \\p_reg[%d] (.D(p[%d]), .%s(rst), ", i ? "DFFC" : "DFFP", i, (i + n - 1) % n, i ? "C" : "P"
    printf ".CK(ck), .Q(p[%d]));\n", i
  }
  for (k = 0; k < 3; k++) {
    at = k * int(n / 3)
    printf "  DFFE \\a_reg[%d] (.D(d[%d]), .E(p[%d]), .CK(ck), .Q(a[%d]));\n", k, k, at, k
    printf "  DFFE \\b_reg[%d] (.D(a[%d]), .E(p[%d]), .CK(ck), .Q(q[%d]));\n", k, k, at + 2, k
  }
  print "endmodule"
}' > ring.v
{
  echo 'create_clock -name ck -period 10 [get_ports ck]'
  for k in 0 1 2; do echo "set_multicycle_path 2 -setup -from [get_cells a_reg[$k]] -to [get_cells b_reg[$k]]"; done
} > ring.sdc
