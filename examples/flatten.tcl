# Runs the Tcl of a constraints script, and prints its SDC commands flat, each with the line that it comes from.
#   tclsh flatten.tcl IN.sdc > OUT.sdc
# Variables, loops, conditions, procedures and sourced files are those of Tcl. What a collection holds only a design tells, and none is
# read here: a collection is handed on as it was written, and what would look into it is refused by its line and name.
# The script runs in a safe interpreter: it can source files, and neither write nor call anything. Status 0, 1 where it is refused
# (nothing is printed then), 2 where the words are wrong.

# The collections that sdcv reads, and the commands in which it reads them; it passes over the collections of all others.
set readable {get_ports get_cells get_pins get_nets get_clocks all_inputs all_outputs all_registers all_clocks}
set reading {create_clock set_case_analysis set_false_path set_multicycle_path}
# They claim nothing, and sdcv doesn't know them: a comment stands in their place.
set dropped {set_annotated_delay set_cmd_units set_dont_touch_network set_dont_use set_fix_hold set_max_time_borrow set_size_only}
# They tell what a collection holds.
set telling {
  sizeof_collection foreach_in_collection compare_collections append_to_collection query_objects is_collection
  get_property get_attribute get_object_name get_object_type get_name get_full_name
}
# They make a collection, beside get_.. and all_..
set making {
  add_to_collection remove_from_collection filter_collection sort_collection copy_collection index_collection range_collection
}

# A collection's handle is no list, so that list commands fail on it: {, a mark, its place in `texts` and a mark.
set own [file normalize [info script]]
set texts {}
set unread {}
set lines {}

proc is_marked {word} { string match "*\x01*" $word }
proc is_handle {word} { regexp "^\{\x01\[0-9\]+\x02\$" $word }
proc place {handle} { string trim $handle "\{\x01\x02" }

# A word as SDC text.
proc quoted {word} { if {[regexp {^[-A-Za-z0-9_./*]+$} $word]} { return $word } else { return [list $word] } }

# The innermost line of a file that runs.
proc at {} {
  for {set i [interp eval box {info frame}]} {$i > 0} {incr i -1} {
    set frame [interp eval box [list info frame $i]]
    if {[dict get $frame type] eq "source" && [dict get $frame file] ne $::own} { return [list [file tail [dict get $frame file]] [dict get $frame line]] }
  }
  return [list [file tail $::script] 0]
}
proc refuse {what why} {
  puts stderr "[join [at] :]: $what: $why"
  exit 1
}

# The objects of a word with collections, each as SDC text: a collection, a list of them, or several in one text.
proc objects {name word} {
  if {[is_handle $word]} {
    if {$name in $::reading && [place $word] in $::unread} {
      refuse [string range [lindex [lindex $::texts [place $word]] 0] 1 end] "sdcv doesn't read it in $name"
    }
    return [list [lindex $::texts [place $word]]]
  }
  if {[catch {llength $word}]} { set word [split $word] }
  set found {}
  foreach part $word {
    if {![is_marked $part]} { lappend found [quoted $part]
    } elseif {$part eq $word || ![is_handle $part] && [catch {llength $part}]} { refuse $name "a collection stands within a text"
    } else { lappend found {*}[objects $name $part] }
  }
  return $found
}
proc shown {name word} {
  if {![is_marked $word]} { return [quoted $word] }
  set found [objects $name $word]
  if {[llength $found] == 1} { return [lindex $found 0] }
  return "\[list [join $found]\]"
}
proc words {name arguments} { join [concat $name [lmap it $arguments { shown $name $it }]] }

proc collection {name arguments} {
  if {$name ni $::readable || [is_marked $arguments]} { lappend ::unread [llength $::texts] }
  lappend ::texts "\[[words $name $arguments]\]"
  return "\{\x01[expr {[llength $::texts] - 1}]\x02"
}
proc command {name arguments} {
  lassign [at] file line
  set place [expr {$file eq [file tail $::script] ? "line $line" : "$file line $line"}]
  if {$name in $::dropped || [list $name {*}$arguments] eq {set_hierarchy_separator /}} {
    lappend ::lines "# dropped: $name, $place"
  } else {
    lappend ::lines "[words $name $arguments]; # $place"
  }
  return
}
# What Tcl doesn't know: the index of a name, as in a_reg[3], a collection, a command of SDC, or nothing.
proc other {name args} {
  if {[regexp {^[0-9*?:]+$} $name]} { return "\[$name\]" }
  if {$name in $::telling} { refuse $name "only a design tells what a collection holds" }
  if {$name in $::making || [string match get_* $name] || [string match all_* $name]} { return [collection $name $args] }
  foreach it {set_* create_* group_path current_*} { if {[string match $it $name]} { return [command $name $args] } }
  refuse $name "no command of Tcl or SDC that can stand here"
}
proc sourced {args} {
  set name [lindex $args end]
  foreach it [list $name [file join [file dirname $::script] $name]] {
    if {[file readable $it]} { return [interp invokehidden box source -encoding iso8859-1 $it] }
  }
  refuse source "$name can't be read"
}

proc told {args} { puts stderr [lindex $args end] }
proc named {what args} {
  if {$what ni {dirname extension join rootname tail exists isfile readable}} { refuse file "$what is left out" }
  return [file $what {*}$args]
}

# In the interpreter of the script, Tcl's commands as they are stand in the namespace sd, and those that look into words or lists have a
# check before them. `tailcall` keeps the lines of bodies.
interp create -safe box
foreach {name to} {
  ::sd::is_marked is_marked ::sd::is_handle is_handle ::sd::refuse refuse unknown other source sourced puts told echo told file named
} { interp alias box $name {} $to }
interp eval box [list array set env [array get env]]
interp eval box {
  namespace eval sd { }
  foreach name {
    expr if while for foreach lmap catch concat string regexp regsub switch lsearch lsort split join format scan subst binary
    llength lindex lrange lreplace linsert lassign lreverse
  } { rename $name sd::$name }
  rename try ""

  proc sd::look {name} { refuse $name "only a design tells what a collection holds" }

  proc sd::plain {name it} { if {[is_marked $it]} { look $name } else { return $it } }
  # The place at which what opens at `from` is closed: a brace or a bracket.
  proc sd::close {text from mark} {
    for {set to [string first $mark $text $from]} {$to >= 0} {set to [string first $mark $text $to+1]} {
      if {[info complete [string range $text $from+1 $to-1]]} { return $to }
    }
    return [string length $text]
  }
  # An expression in which the value of each command must be plain; what stands in braces is text.
  proc sd::guarded {name text} {
    set out ""
    for {set at 0} {$at < [string length $text]} {incr at} {
      set to $at
      switch -- [string index $text $at] {
        \\ { incr to }
        \{ { set to [close $text $at \}] }
        \[ { set to [close $text $at \]]; append out "\[::sd::plain $name " }
      }
      append out [string range $text $at $to]
      if {[string index $text $at] eq "\["} { append out "\]" }
      set at $to
    }
    return $out
  }
  # The value of an expression in which no variable and no command gives a collection.
  proc sd::value {name text} {
    plain $name $text
    foreach it [regexp -all -inline {\$(?:\{[^\}]*\}|[A-Za-z0-9_:]+(?:\([^()]*\))?)} $text] {
      if {[catch {uplevel 1 [list ::sd::subst -nobackslashes -nocommands $it]} known]} {
        regexp {^\$\{?([^\}(]*)} $it -> it
        set known [uplevel 1 [list array get $it]]
      }
      plain $name $known
    }
    tailcall ::sd::expr [guarded $name $text]
  }
  proc sd::condition {name text} { return "\[::sd::value $name [list $text]\]" }
  proc sd::conditions {words} {
    set next 0
    while 1 {
      lset words $next [condition if [lindex $words $next]]
      incr next [expr {[lindex $words $next+1] eq "then" ? 3 : 2}]
      if {[lindex $words $next] ne "elseif"} { return $words }
      incr next
    }
  }
  # A list of two words is one item, and a collection is an item.
  proc sd::joined {words} {
    set all {}
    foreach it $words { if {[is_handle $it]} { lappend all $it } else { lappend all {*}$it } }
    return $all
  }
  proc expr args { tailcall sd::value expr [sd::concat {*}$args] }
  proc if args { tailcall sd::if {*}[sd::conditions $args] }
  proc while {test body} { tailcall sd::while [sd::condition while $test] $body }
  proc for {start test next body} { tailcall sd::for $start [sd::condition for $test] $next $body }
  proc concat args { sd::if {[sd::is_marked $args]} { return [sd::joined $args] } else { return [sd::concat {*}$args] } }
  proc catch {script args} {
    set code [sd::catch {uplevel 1 $script} it options]
    sd::if {$code == 1 && [sd::string match *brace* $it]} { sd::look catch }
    sd::foreach name $args value [list $it $options] { sd::if {$name ne ""} { uplevel 1 [list set $name $value] } }
    return $code
  }
  sd::foreach name {string regexp regsub switch lsearch lsort split join format scan subst binary} {
    proc $name args "sd::if {\[sd::is_marked \$args\]} { sd::look $name }; tailcall sd::$name {*}\$args"
  }
  sd::foreach name {llength lindex lrange lreplace linsert lassign lreverse} {
    proc $name args "sd::if {\[sd::is_handle \[sd::lindex \$args 0\]\]} { sd::look $name }; tailcall sd::$name {*}\$args"
  }
  sd::foreach name {foreach lmap} {
    proc $name args "sd::foreach {names items} \$args { sd::if {\[sd::is_handle \$items\]} { sd::look $name } }; tailcall sd::$name {*}\$args"
  }
  unset name
}

if {[llength $argv] != 1} { puts stderr {usage: tclsh flatten.tcl IN.sdc > OUT.sdc}; exit 2 }
set script [lindex $argv 0]
if {[catch {interp invokehidden box -global source -encoding iso8859-1 $script} message options]} {
  set at [expr {[regexp {\(file "([^"]*)" line ([0-9]+)\)} [dict get $options -errorinfo] -> file line] ? "[file tail $file]:$line: " : ""}]
  puts stderr $at$message
  exit 1
}
fconfigure stdout -encoding iso8859-1
puts [join $lines \n]
