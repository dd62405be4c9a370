#!/bin/sh
# RTL to a netlist that sdcv reads, by yosys.
#   sh netlist.sh RTL TOP LIB OUT [CUT..]
# RTL is a file, or several in one word: 'a.v b.v'.
# Flops of falling edges and latches are cut, and what CUT selects in yosys' words: t:RAM* all instances of such modules, c:u_ram one.
# What they drove becomes input ports of OUT. BUF names a buffer of LIB with its pins.
set -e
[ $# -ge 4 ] || { sed -n '2,6s/^# //p' "$0" >&2; exit 2; }
rtl=$1 top=$2 lib=$3 out=$4
shift 4
yosys -q -p "
read_liberty -lib -ignore_miss_func $lib
read_verilog -sv $rtl
# three-state outputs and inout ports stop here: yosys takes z for any value that suits it
hierarchy -top $top
proc
tribuf
select -assert-none t:\$tribuf
select -assert-none i:* o:* %i
synth -top $top -flatten
# the registers get names while the nets of the RTL are there
rename -wire -suffix _reg t:\$_*FF*
# what is cut; where it drove an output port, that becomes an input port
delete $* t:\$_*FF*_N* t:\$_*LATCH* t:\$_SR_*
opt_clean
setundef -undriven -expose
delete -output i:* o:* %i
dfflibmap -liberty $lib
abc -liberty $lib
opt_clean -purge
# x becomes 0; an output port that is a constant or an input gets a buffer
setundef -zero
insbuf -buf ${BUF:-BUFX2 A Y}
clean
write_verilog -noattr $out
"
