#!/bin/sh
# The hold violation that the false path of loads.sdc hides, by a timing analyser and by a simulation with delays:
#   sh loads_test.sh, with sdcv, sta (OpenSTA) and iverilog on the PATH
set -eu
here=$(cd "$(dirname "$0")" && pwd) room=$(mktemp -d)
trap 'rm -rf "$room"' EXIT
cp "$here/loads.v" "$here/loads.sdc" "$room"
cd "$room"
sed 's/set_false_path/& -setup/' loads.sdc > setup.sdc

# The cells for OpenSTA: a buffer takes 0.2 ns, all else 0.1; flops have no setup and no hold time.
none='(scalar) { values ("0"); }'
arc() { # pin, delay, type
  printf 'timing () { related_pin : "%s"; %s ' "$1" "${3:-}"
  for e in rise fall; do printf 'cell_%s (scalar) { values ("%s"); } %s_transition %s ' $e "$2" $e "$none"; done
  printf '} '
}
check() { printf 'timing () { related_pin : "CK"; timing_type : %s; rise_constraint %s fall_constraint %s } ' "$1" "$none" "$none"; }
inputs() { for p do printf 'pin (%s) { direction : input; capacitance : 0; } ' "$p"; done; }
gate() { # cell, function, delay, pins
  printf 'cell (%s) { pin (Y) { direction : output; function : "%s"; ' "$1" "$2"
  delay=$3; shift 3
  for p do arc "$p" "$delay"; done
  printf '} '; inputs "$@"; echo '}'
}
flop() { # cell, what it is cleared by
  printf 'cell (%s) { ff (IQ, IQN) { clocked_on : "CK"; next_state : "D"; %s } ' "$1" "${2:+clear : \"$2\";}"
  printf 'pin (CK) { direction : input; clock : true; capacitance : 0; } pin (D) { direction : input; capacitance : 0; '
  check setup_rising; check hold_rising
  printf '} pin (Q) { direction : output; function : "IQ"; '; arc CK 0.1 'timing_type : rising_edge;'
  printf '} '; inputs $2; echo '}'
}
{
  echo 'library (loads) { delay_model : table_lookup; time_unit : "1ns"; capacitive_load_unit (1, pf);'
  for e in rise fall; do
    echo "input_threshold_pct_$e : 50; output_threshold_pct_$e : 50; slew_lower_threshold_pct_$e : 20; slew_upper_threshold_pct_$e : 80;"
  done
  gate BUF A 0.2 A; gate INV '!A' 0.1 A; gate MUX2 'A*!S+B*S' 0.1 A B S; flop DFF ''; flop DFFC C
  echo '}'
} > loads.lib

# What OpenSTA says of the hold check from a to b, without -setup and with it.
for script in loads setup; do
  cat > run.tcl <<T
read_liberty loads.lib; read_verilog loads.v; link_design loads; read_sdc $script.sdc; set_propagated_clock [all_clocks]
report_checks -path_delay min -from [get_cells a] -to [get_cells b]
T
  echo "$(sed -n 's/ -from.*//p' $script.sdc): $(sta -no_splash -exit run.tcl | grep -E 'No paths|slack' | xargs)"
done

# What sdcv says, and the run in which b takes the new bit of a.
sdcv verify loads.v builtin loads.sdc --out c --reset rst=1 --hold > report || [ $? = 1 ]
grep '^pair' report

# That run in a simulation with these delays, and with buffers that take no time: y, which shows b, at the end of each cycle.
cat > cells.v <<'V'
`timescale 1ns/1ps
module BUF (input A, output Y); assign #(`BUFFER) Y = A; endmodule
module INV (input A, output Y); assign #0.1 Y = ~A; endmodule
module MUX2 (input A, B, S, output Y); assign #0.1 Y = S ? B : A; endmodule
module DFF (input D, CK, output reg Q); always @(posedge CK) Q <= #0.1 D; endmodule
module DFFC (input D, C, CK, output reg Q); always @(posedge CK, posedge C) Q <= #0.1 C ? 1'b0 : D; endmodule
V
awk '/^stimulus 2 /, /^end/' report | awk '
  $1 == "state" {
    print "module test; reg clk = 0, rst, d; wire y; loads u (.clk(clk), .rst(rst), .d(d), .y(y));"
    print "initial begin {u.ph.Q, u.a.Q, u.b.Q} = 3\047b" $2 ";"
  }
  $1 == "input" { print "{rst, d} = 2\047b" $2 "; #8 $write(\" %b\", y); clk = 1; #2 clk = 0;" }
  END { print "$display; end endmodule" }' > test.v
for delay in 0 0.2; do
  iverilog -DBUFFER=$delay -o sim cells.v loads.v test.v
  echo "y, buffers take $delay ns:$(vvp sim)"
done
