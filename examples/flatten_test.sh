#!/bin/sh
# What flatten.tcl prints for each form, and what it refuses.
#   sh flatten_test.sh
cd "$(dirname "$0")" || exit 2
room=$(mktemp -d) || exit 2
trap 'rm -r "$room"' EXIT
passed=0 failed=0

# $1 what it shows; standard input: the script, a line ---, and what is printed for it
form() {
  sed '/^---$/,$d' > "$room/in.sdc" < "$room/case"
  sed '1,/^---$/d' > "$room/want" < "$room/case"
  tclsh flatten.tcl "$room/in.sdc" > "$room/out" 2> "$room/err"
  status=$?
  cat "$room/err" >> "$room/out"
  if [ $status = "$2" ] && cmp -s "$room/out" "$room/want"; then passed=$((passed + 1)); else
    failed=$((failed + 1)); echo "failed: $1 (status $status)"; diff "$room/want" "$room/out"; fi
}
prints() { cat > "$room/case"; form "$1" 0; }
refuses() { cat > "$room/case"; form "$1" 1; }

prints 'variables and arithmetic' <<'X'
set half [expr {10 / 2.0}]
create_clock -name clk -period [expr 2 * $half] [get_ports clk]
---
create_clock -name clk -period 10.0 [get_ports clk]; # line 2
X
prints 'a loop, with the index of a name' <<'X'
foreach i {0 1} {
  set_false_path -from [get_cells a_reg[$i]] \
    -to [get_cells b_reg[*]]
}
---
set_false_path -from [get_cells {a_reg[0]}] -to [get_cells {b_reg[*]}]; # line 2
set_false_path -from [get_cells {a_reg[1]}] -to [get_cells {b_reg[*]}]; # line 2
X
prints 'for, while, break, continue, incr' <<'X'
for {set i 0} {$i < 4} {incr i} {
  if {$i == 1} continue
  set_load $i [get_ports d]
}
while {1} { incr i -1; if {$i < 3} break }
set_load $i [get_ports d]
---
set_load 0 [get_ports d]; # line 3
set_load 2 [get_ports d]; # line 3
set_load 3 [get_ports d]; # line 3
set_load 2 [get_ports d]; # line 6
X
prints 'conditions over texts' <<'X'
set mode func
if {$mode eq "test"} {
  set_case_analysis 1 [get_ports scan_en]
} elseif {[string match f* $mode] && [info exists mode]} {
  set_case_analysis 0 [get_ports scan_en]
} else {
  set_case_analysis 1 [get_ports other]
}
switch $mode { test { set_load 1 [get_ports d] } default { set_load 2 [get_ports d] } }
---
set_case_analysis 0 [get_ports scan_en]; # line 5
set_load 2 [get_ports d]; # line 9
X
prints 'a procedure: the line is that of its command' <<'X'
proc two_cycles {from to} {
  set_multicycle_path 2 -setup -from $from -to $to
  if {$from ne ""} {

    set_multicycle_path 1 -hold -from $from -to $to
  }
}
two_cycles a_reg {b_reg c_reg}
---
set_multicycle_path 2 -setup -from a_reg -to {b_reg c_reg}; # line 2
set_multicycle_path 1 -hold -from a_reg -to {b_reg c_reg}; # line 5
X
prints 'a collection is handed on as it was written' <<'X'
proc two_cycles {from to} { set_multicycle_path 2 -from $from -to $to }
set a [get_cells u_path/a_reg[*]]
two_cycles $a [all_registers]
---
set_multicycle_path 2 -from [get_cells {u_path/a_reg[*]}] -to [all_registers]; # line 1
X
prints 'lists of collections' <<'X'
set a [get_cells a_reg]
set b {}
lappend b $a [get_cells b_reg]
set_false_path -from [list $a]
set_false_path -from $b -to [concat $a {c d[1]}]
set_false_path -to "$a [get_ports q]"
foreach it $b { set_false_path -from $it }
set_load [llength $b] [get_ports q]
---
set_false_path -from [get_cells a_reg]; # line 4
set_false_path -from [list [get_cells a_reg] [get_cells b_reg]] -to [list [get_cells a_reg] c {d[1]}]; # line 5
set_false_path -to [list [get_cells a_reg] [get_ports q]]; # line 6
set_false_path -from [get_cells a_reg]; # line 7
set_false_path -from [get_cells b_reg]; # line 7
set_load 2 [get_ports q]; # line 8
X
prints 'any collection where sdcv passes over it' <<'X'
set_input_delay 1 -clock clk [remove_from_collection [all_inputs] [get_ports clk]]
set_driving_cell -lib_cell BUF [filter_collection [all_inputs] {name =~ d*}]
---
set_input_delay 1 -clock clk [remove_from_collection [all_inputs] [get_ports clk]]; # line 1
set_driving_cell -lib_cell BUF [filter_collection [all_inputs] {name =~ d*}]; # line 2
X
prints 'what claims nothing and sdcv does not know' <<'X'
set_dont_use [get_lib_cells */BUF*]
set_hierarchy_separator /
set sdc_version 2.1
puts "three words"
---
# dropped: set_dont_use, line 1
# dropped: set_hierarchy_separator, line 2
three words
X
prints 'variables of the environment, arrays, catch' <<'X'
set p(from) [get_cells a]
set p(on) 1
if {$p(on) && [string length $env(PATH)] > 0} { set_false_path -from $p(from) }
if {[catch { set_false_path -to [get_cells b] } why]} { puts $why }
---
set_false_path -from [get_cells a]; # line 3
set_false_path -to [get_cells b]; # line 4
X
echo 'set_load 3 [get_ports d]' > "$room/sub.sdc"
prints 'a sourced file, beside the script' <<'X'
source sub.sdc
source [file join [file dirname [info script]] sub.sdc]
---
set_load 3 [get_ports d]; # sub.sdc line 1
set_load 3 [get_ports d]; # sub.sdc line 1
X
prints 'options that sdcv may refuse stay for it to judge' <<'X'
set_false_path -from [get_cells -hierarchical *a_reg] -rise_to b
create_generated_clock -divide_by 2 -source [get_ports clk] [get_pins r/Q]
---
set_false_path -from [get_cells -hierarchical *a_reg] -rise_to b; # line 1
create_generated_clock -divide_by 2 -source [get_ports clk] [get_pins r/Q]; # line 2
X

refuses 'a collection compared in a condition' <<'X'

if {[get_cells a*] ne ""} { set_false_path -from [get_cells a*] }
---
in.sdc:2: if: only a design tells what a collection holds
X
refuses 'the same by a variable' <<'X'
set a [get_cells a*]
if {1} {

  if {0} { } elseif {$a eq ""} { }
}
---
in.sdc:4: if: only a design tells what a collection holds
X
refuses 'an element of an array' <<'X'
set p(from) [get_cells a*]
while {$p(from) eq ""} { }
---
in.sdc:2: while: only a design tells what a collection holds
X
refuses 'the value of a procedure' <<'X'
set p(from) [get_cells a*]
proc from {} { global p; return $p(from) }
if {"x" eq {[from]} || [from] eq ""} { }
---
in.sdc:3: if: only a design tells what a collection holds
X
refuses 'a condition without braces' <<'X'
if [get_cells a*] { }
---
in.sdc:1: if: only a design tells what a collection holds
X
refuses 'an expression' <<'X'
set a [get_cells a*]
set n [expr {$a == {}}]
---
in.sdc:2: expr: only a design tells what a collection holds
X
refuses 'foreach' <<'X'
foreach it [get_cells a*] { set_false_path -from $it }
---
in.sdc:1: foreach: only a design tells what a collection holds
X
refuses 'llength, also in catch' <<'X'
set a [get_cells a*]
catch { set n [llength $a] }
---
in.sdc:2: llength: only a design tells what a collection holds
X
refuses 'a comparison of texts' <<'X'
if {[string equal [get_cells a*] ""]} { }
---
in.sdc:1: string: only a design tells what a collection holds
X
refuses 'the same outside a condition' <<'X'
set a [get_cells a*]
set none [string equal $a ""]
---
in.sdc:2: string: only a design tells what a collection holds
X
refuses 'switch' <<'X'
switch [get_cells a*] { "" { } default { } }
---
in.sdc:1: switch: only a design tells what a collection holds
X
refuses 'sizeof_collection' <<'X'
set n [sizeof_collection [get_cells a*]]
---
in.sdc:1: sizeof_collection: only a design tells what a collection holds
X
refuses 'foreach_in_collection' <<'X'
foreach_in_collection it [get_cells a*] { set_false_path -from $it }
---
in.sdc:1: foreach_in_collection: only a design tells what a collection holds
X
refuses 'get_property' <<'X'
set_false_path -from [get_property [get_cells a*] full_name]
---
in.sdc:1: get_property: only a design tells what a collection holds
X
refuses 'remove_from_collection in an exception' <<'X'
set_false_path -from [remove_from_collection [all_registers] [get_cells a*]]
---
in.sdc:1: remove_from_collection: sdcv doesn't read it in set_false_path
X
refuses 'add_to_collection in an exception, from a variable' <<'X'
set both [add_to_collection [get_cells a*] [get_cells b*]]
set_multicycle_path 2 -to [list $both [get_cells c]]
---
in.sdc:2: add_to_collection: sdcv doesn't read it in set_multicycle_path
X
refuses 'a collection of a collection' <<'X'
set a [get_cells a*]
set_false_path -to [get_pins -of_objects $a]
---
in.sdc:2: get_pins: sdcv doesn't read it in set_false_path
X
refuses 'a collection within a text' <<'X'
set a [get_cells u_a]
set_false_path -from $a/b_reg
---
in.sdc:2: set_false_path: a collection stands within a text
X
refuses 'a name that neither Tcl nor SDC has' <<'X'
proc twice {x} {

  report_timing -from $x
}
twice a
---
in.sdc:3: report_timing: no command of Tcl or SDC that can stand here
X
refuses 'what would reach outside' <<'X'
set f [exec ls]
---
in.sdc:1: exec: no command of Tcl or SDC that can stand here
X
refuses 'an error of the script: nothing is printed' <<'X'
set_false_path -from [get_cells a]
set_false_path -from $b
---
in.sdc:2: can't read "b": no such variable
X
refuses 'a file that is not there' <<'X'
source nowhere.sdc
---
in.sdc:1: source: nowhere.sdc can't be read
X
echo "passed $passed failed $failed"
[ $failed = 0 ]
