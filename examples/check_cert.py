#!/usr/bin/env python3
"""A second checker for the certificates of sdcv, in plain Python.

    check_cert.py V S CERT [--hold] [--reset LIST] [--reset-cycles N]

It shares no line with sdcv: docs/CERTIFICATE.md and docs/REFERENCE.md are all
that it was written from, and the comments name their sections. V is a netlist
of built-in cells, S a script with a clock and with false and multicycle paths
between named cells and ports, CERT a certificate of a run without --hazard and
--lag. The statuses, and what is printed:

    0  accepted A of P, and a line `pair N` for each of the A listed pairs
    7  rejected, and why: the certificate does not prove what it says
    3  not understood, and why: the netlist, the script or the reset
    4  the words are wrong
    5  a file can't be read

Not read are Liberty, -through, patterns with * and ?, and the commands of a
script but create_clock, set_case_analysis and the two exceptions.

The texts come first: cells, netlist, script. Whoever wants to see how little a
certificate needs may begin at "pairs".
"""
import argparse
import re
import sys
from dataclasses import dataclass
from functools import lru_cache
from itertools import count


class NotUnderstood(Exception):
    """The netlist, the script or the reset is not one that this checker reads."""


class Rejected(Exception):
    """The certificate does not prove what it says."""


# ---------------------------------------------------------------- the cells
# REFERENCE "Built-in cells": the input pins in order, and the output's value.

def all_of(*bits):
    return int(all(bits))


def any_of(*bits):
    return int(any(bits))


def odd(*bits):
    return sum(bits) % 2


def negated(function):
    return lambda *bits: 1 - function(*bits)


GATES = {
    "TIE0": ("", lambda: 0), "TIE1": ("", lambda: 1),
    "BUF": ("A", all_of), "INV": ("A", negated(all_of)),
    "AND2": ("A B", all_of), "AND3": ("A B C", all_of), "AND4": ("A B C D", all_of),
    "OR2": ("A B", any_of), "OR3": ("A B C", any_of), "OR4": ("A B C D", any_of),
    "NAND2": ("A B", negated(all_of)), "NAND3": ("A B C", negated(all_of)),
    "NOR2": ("A B", negated(any_of)), "NOR3": ("A B C", negated(any_of)),
    "XOR2": ("A B", odd), "XNOR2": ("A B", negated(odd)),
    "MUX2": ("A B S", lambda a, b, s: b if s else a),
    "AOI21": ("A B C", lambda a, b, c: 1 - (a & b | c)),
    "OAI21": ("A B C", lambda a, b, c: 1 - ((a | b) & c)),
}

PRIMITIVES = {
    "and": all_of, "or": any_of, "xor": odd, "buf": all_of,
    "nand": negated(all_of), "nor": negated(any_of), "xnor": negated(odd), "not": negated(all_of),
}

# A flop: its input pins but CK; whether it reads its own bit; the bit that its
# clear or preset forces, or None; and else its next state. `own` is its own bit.
FLOPS = {
    "DFF": ("D", False, lambda d: None, lambda own, d: d),
    "DFFC": ("D C", False, lambda d, c: 0 if c else None, lambda own, d, c: d),
    "DFFP": ("D P", False, lambda d, p: 1 if p else None, lambda own, d, p: d),
    "DFFE": ("D E", True, lambda d, e: None, lambda own, d, e: d if e else own),
    "SDFFC": ("D SI SE C", False, lambda d, si, se, c: 0 if c else None,
              lambda own, d, si, se, c: si if se else d),
}

CLOCK_GATES = {"ICG": "EN"}


def table_of(places, function):
    """The values of a function, a row after another: place i is bit i of the row's number."""
    return tuple(function(*(row >> place & 1 for place in range(places))) for row in range(2 ** places))


def capture_table(flop, gated):
    """CERTIFICATE "Capture" and section 8. The places: the inputs, the clock gate, the own bit."""
    pins, holds, forced, following = FLOPS[flop]
    width = len(pins.split())

    def captured(*places):
        data, opened, own = places[:width], places[width] if gated else 1, places[-1]
        force = forced(*data)
        if force is not None:
            return force
        return following(own, *data) if opened else own

    return table_of(width + gated + (holds or gated), captured)


# ------------------------------------------------------ the cubes (section 8)

@lru_cache(maxsize=None)
def implicants(table):
    """The prime cubes where the function is 1, as texts of 0, 1 and -.

    By the last place: a prime cube that has - there is one of what both halves share; a prime cube of one half
    keeps its 0 or 1 where it is none of those.
    """
    if not any(table):
        return frozenset()
    if all(table):
        return frozenset(["-" * (len(table).bit_length() - 1)])
    low, high = table[:len(table) // 2], table[len(table) // 2:]
    both = implicants(tuple(map(min, low, high)))
    return frozenset([cube + "-" for cube in both]
                     + [cube + "0" for cube in implicants(low) - both]
                     + [cube + "1" for cube in implicants(high) - both])


@lru_cache(maxsize=None)
def cubes_of(table, version):
    """The cubes of a function in their order, each with its value: rows in version 1, else prime ones."""
    places = len(table).bit_length() - 1
    if version == 1:
        return [("".join(str(row >> place & 1) for place in range(places)), value)
                for row, value in enumerate(table)]
    cubes = [(cube, 1) for cube in implicants(table)]
    cubes += [(cube, 0) for cube in implicants(tuple(1 - value for value in table))]
    digits = str.maketrans("-", "2")
    return sorted(cubes, key=lambda one: int("0" + one[0][::-1].translate(digits), 3))


# ------------------------------------------------- the text of the netlist
# REFERENCE "Netlist". An expression becomes a list of parts: (name, left,
# right) for a name, a bit or a range of it, ("", bits) for a constant.

TOKEN = re.compile(r"""
    (?P<space>    [ \t\n\r\f]+ | //[^\n]* | /\*.*?\*/ | \(\*.*?\*\)
                | (?<![^\n])`(?:timescale|default_nettype|celldefine|endcelldefine|resetall)[^\n]* )
  | \\(?P<escaped> [!-~]+ ) (?= [ \t\n\r\f] )
  | (?P<word>     [A-Za-z_][A-Za-z0-9_$]* )
  | (?P<constant> [0-9]+'[bhdoBHDO][0-9a-fA-F_]+ )
  | (?P<number>   [0-9]+ )
  | (?P<mark>     [()\[\]{}:;,.=] )
""", re.VERBOSE | re.DOTALL)

KEYWORDS = {"module", "endmodule", "input", "output", "wire", "supply0", "supply1", "assign", *PRIMITIVES}


def tokens_of(text):
    """The words and marks of a netlist as (kind, text)."""
    tokens, at = [], 0
    while at < len(text):
        match = TOKEN.match(text, at)
        if not match:
            raise NotUnderstood(f"the netlist at {text[at:at + 20]!r}")
        kind, at = match.lastgroup, match.end()
        if kind == "escaped" or kind == "word" and match[kind] not in KEYWORDS:
            tokens.append(("name", match[kind]))
        elif kind != "space":
            tokens.append((kind, match[kind]))
    return tokens + [("end", "")]


def constant_bits(text):
    """The bits of a constant, the most significant first."""
    size, rest = text.split("'")
    digits = rest[1:].replace("_", "")
    try:
        value = int(digits, {"b": 2, "o": 8, "d": 10, "h": 16}[rest[0].lower()])
    except ValueError:
        raise NotUnderstood(f"the constant {text}") from None
    if not 1 <= int(size) <= 64 or value >> int(size):
        raise NotUnderstood(f"the constant {text}")
    return [value >> place & 1 for place in reversed(range(int(size)))]


class Module:
    """A module as it is written: its ports, the ranges of its names, and its items."""

    def __init__(self, name):
        self.name, self.ports, self.items = name, [], []
        self.directions, self.ranges, self.wires = {}, {}, set()

    def declare(self, kind, name, bounds):
        """A name of a declaration. A port may be declared as a wire too."""
        known = self.directions if kind in ("input", "output") else self.wires
        if name in known or name in self.ranges and self.ranges[name] != bounds:
            raise NotUnderstood(f"{name} is declared twice")
        self.ranges[name] = bounds
        if known is self.wires:
            known.add(name)
        else:
            known[name] = kind

    def width(self, name):
        bounds = self.ranges[name]
        return 1 if bounds is None else abs(bounds[0] - bounds[1]) + 1

    def bit_names(self, name):
        """The names of the bits of a bus from its left bound on; a name without a range is its one bit."""
        if self.ranges[name] is None:
            return [name]
        left, right = self.ranges[name]
        step = 1 if right >= left else -1
        return [f"{name}[{bit}]" for bit in range(left, right + step, step)]

    def imply(self, parts):
        """A name that is declared nowhere is a wire where it stands in a connection, a terminal or a target."""
        for name, *select in parts:
            if name and select == [None, None]:
                self.ranges.setdefault(name, None)

    def finish(self):
        """Once the body is read."""
        for port in self.ports:
            if port not in self.directions:
                raise NotUnderstood(f"the port {port} has no direction")
        if set(self.directions) != set(self.ports) or len(set(self.ports)) != len(self.ports):
            raise NotUnderstood(f"the ports of {self.name}")
        for kind, *words in self.items:
            if kind == "assign":
                self.imply(words[0])
            else:
                for parts in words[-1].values() if kind == "instance" else words[-1]:
                    self.imply(parts)


class NetlistText:
    """The reader of the modules."""

    def __init__(self, text):
        self.tokens, self.at = tokens_of(text), 0

    def modules(self):
        found = {}
        while self.tokens[self.at][0] != "end":
            module = self.module()
            if module.name in found:
                raise NotUnderstood(f"two modules {module.name}")
            found[module.name] = module
        return found

    def sees(self, *texts):
        kind, text = self.tokens[self.at]
        return kind != "name" and text in texts

    def take(self, *texts):
        """The next word, which has to be one of these."""
        if not self.sees(*texts):
            raise NotUnderstood(f"{self.tokens[self.at][1]!r} in the netlist in place of {' '.join(texts)}")
        self.at += 1
        return self.tokens[self.at - 1][1]

    def passes(self, text):
        """Passes this word if it is the next one."""
        if self.sees(text):
            self.at += 1
            return True
        return False

    def of_kind(self, kind):
        if self.tokens[self.at][0] != kind:
            raise NotUnderstood(f"{self.tokens[self.at][1]!r} in the netlist in place of a {kind}")
        self.at += 1
        return self.tokens[self.at - 1][1]

    def name(self):
        return self.of_kind("name")

    def number(self):
        text = self.of_kind("number")
        if len(text) > 5 or int(text) > 65535:
            raise NotUnderstood(f"the bound {text}")
        return int(text)

    def list_of(self, one):
        """One or more with commas between them."""
        found = [one()]
        while self.passes(","):
            found.append(one())
        return found

    def range(self):
        if not self.passes("["):
            return None
        left = self.number()
        self.take(":")
        right = self.number()
        self.take("]")
        return left, right

    def module(self):
        self.take("module")
        module = Module(self.name())
        if self.passes("(") and not self.passes(")"):
            if self.sees("input", "output"):
                self.header_declarations(module)
            else:
                module.ports = self.list_of(self.name)
            self.take(")")
        self.take(";")
        while not self.passes("endmodule"):
            self.item(module)
        module.finish()
        return module

    def header_declarations(self, module):
        """Ports with their directions in the header; a name without one takes the last one with its range."""
        while True:
            if self.sees("input", "output"):
                direction = self.take("input", "output")
                self.passes("wire")
                bounds = self.range()
            module.ports.append(self.name())
            module.declare(direction, module.ports[-1], bounds)
            if not self.passes(","):
                return

    def item(self, module):
        if self.sees("input", "output", "wire", "supply0", "supply1"):
            self.declaration(module)
        elif self.passes("assign"):
            module.items += self.list_of(self.assignment)
        elif self.sees(*PRIMITIVES):
            kind = self.take(*PRIMITIVES)
            module.items += self.list_of(lambda: self.primitive(kind))
        else:
            reference = self.name()
            module.items += self.list_of(lambda: self.instance(reference))
        self.take(";")

    def declaration(self, module):
        kind = self.take("input", "output", "wire", "supply0", "supply1")
        if kind in ("input", "output"):
            self.passes("wire")
        bounds = self.range()
        for name in self.list_of(self.name):
            module.declare(kind, name, bounds)
            if kind in ("supply0", "supply1"):
                bit = int(kind[-1])
                module.items.append(("assign", [(name, None, None)], [("", [bit] * module.width(name))]))

    def assignment(self):
        target = self.expression()
        self.take("=")
        return "assign", target, self.expression()

    def primitive(self, kind):
        name = "" if self.sees("(") else self.name()
        self.take("(")
        terminals = self.list_of(self.expression)
        self.take(")")
        return "primitive", kind, name, terminals

    def instance(self, reference):
        name, pins = self.name(), {}
        self.take("(")
        if not self.sees(")"):
            for pin, parts in self.list_of(self.connection):
                if pin in pins:
                    raise NotUnderstood(f"{name} has two connections of {pin}")
                pins[pin] = parts
        self.take(")")
        return "instance", reference, name, pins

    def connection(self):
        self.take(".")
        pin = self.name()
        self.take("(")
        parts = [] if self.sees(")") else self.expression()
        self.take(")")
        return pin, parts

    def expression(self):
        if self.passes("{"):
            parts = sum(self.list_of(self.expression), [])
            self.take("}")
            return parts
        if self.tokens[self.at][0] == "constant":
            return [("", constant_bits(self.of_kind("constant")))]
        name, left, right = self.name(), None, None
        if self.passes("["):
            left = right = self.number()
            if self.passes(":"):
                right = self.number()
            self.take("]")
        return [(name, left, right)]


# ------------------------------------- the walk through the design (section 2)

@dataclass
class Gate:
    """A combinational function; nets are numbers in the order in which the walk meets them."""
    inputs: list
    output: int
    table: tuple
    buffer: bool = False    # a buffer or an inverter, as the clock tree has them


@dataclass
class Register:
    flop: str
    inputs: list
    clock: int
    output: int


@dataclass
class ClockGate:
    enables: list
    clock: int
    output: int


@dataclass
class Named:
    """What a name of the script stands for: lists of starts and of ends; after an edge option other starts."""
    starts: list
    ends: list
    edge_starts: list


def add_name(names, name, starts=(), ends=(), edge_starts=None):
    one = names.setdefault(name, Named([], [], []))
    one.starts += starts
    one.ends += ends
    one.edge_starts += starts if edge_starts is None else edge_starts


class Walk:
    """All items of the design in the order of the walk, over the nets of the whole design."""

    def __init__(self, modules):
        self.modules, self.net_count, self.driven = modules, 0, set()
        self.gates, self.registers, self.clock_gates = [], [], []
        self.cells, self.pins = {}, {}      # full names
        self.instances, self.walked, self.open_modules = set(), set(), []
        used = {item[1] for module in modules.values() for item in module.items if item[0] == "instance"}
        tops = [module for name, module in modules.items() if name not in used]
        if len(tops) != 1:
            raise NotUnderstood(f"{len(tops)} top modules")
        self.top = tops[0]
        self.nets = self.new_nets(self.top, {})
        for port in self.top.ports:
            if self.top.directions[port] == "input":
                for net in self.nets[port]:
                    self.drive(net)
        self.module(self.top, "", self.nets)
        if self.walked != set(modules):
            raise NotUnderstood("modules that stand in each other alone")

    def port_bits(self, direction):
        """The names and nets of the top module's port bits, in the order of its header."""
        return [bit for port in self.top.ports if self.top.directions[port] == direction
                for bit in zip(self.top.bit_names(port), self.nets[port])]

    def new_net(self):
        self.net_count += 1
        return self.net_count - 1

    def new_nets(self, module, outside):
        """The nets of an instance of a module; those of its ports are the nets outside."""
        return {name: outside.get(name) or [self.new_net() for _ in range(module.width(name))]
                for name in module.ranges}

    def drive(self, net):
        if net in self.driven:
            raise NotUnderstood("a net that two drive")
        self.driven.add(net)
        return net

    def gate(self, inputs, output, table, buffer=False):
        self.gates.append(Gate(inputs, self.drive(output), table, buffer))

    def part(self, module, nets, name, left, right):
        """The nets of a name, of a bit of it, or of a range of it, the left one first."""
        if name not in nets:
            raise NotUnderstood(f"the net {name} is declared nowhere")
        if left is None:
            return nets[name]
        if module.ranges[name] is None:
            raise NotUnderstood(f"{name} has no bits")
        first, last = module.ranges[name]
        step = 1 if last >= first else -1
        begin, end = (left - first) * step, (right - first) * step
        if not 0 <= begin <= end < len(nets[name]):
            raise NotUnderstood(f"the bits [{left}:{right}] of {name}")
        return nets[name][begin:end + 1]

    def bits(self, module, nets, parts):
        """The bits of an expression, the leftmost first: a net as [net], a constant as its value."""
        found = []
        for part in parts:
            found += part[1] if part[0] == "" else [[net] for net in self.part(module, nets, *part)]
        return found

    def read(self, bit):
        """The net of a bit that is read. Each constant bit is a gate without inputs on a net of its own."""
        if isinstance(bit, list):
            return bit[0]
        net = self.new_net()
        self.gate([], net, (bit,))
        return net

    def written(self, bit):
        """The net of a bit that is driven."""
        if not isinstance(bit, list):
            raise NotUnderstood("a constant that is driven")
        return bit[0]

    def one(self, bits):
        if len(bits) != 1:
            raise NotUnderstood(f"a pin or terminal with {len(bits)} bits")
        return bits[0]

    def module(self, module, path, nets):
        """All items of an instance of a module, in the order of the text."""
        self.walked.add(module.name)
        self.open_modules.append(module)
        for kind, *words in module.items:
            getattr(self, kind)(module, path, nets, *words)
        self.open_modules.pop()

    def assign(self, module, path, nets, target, value):
        targets, values = self.bits(module, nets, target), self.bits(module, nets, value)
        if len(targets) != len(values):
            raise NotUnderstood("an assignment of another width")
        for to, bit in zip(targets, values):
            self.gate([self.read(bit)], self.written(to), (0, 1), True)

    def primitive(self, module, path, nets, kind, name, terminals):
        bits = [self.one(self.bits(module, nets, parts)) for parts in terminals]
        if len(bits) < 2:
            raise NotUnderstood(f"{kind} with {len(bits)} terminals")
        if name:
            self.new_cell(path + name)
        single = kind in ("buf", "not")
        outputs, inputs = (bits[:-1], bits[-1:]) if single else (bits[:1], bits[1:])
        if len(inputs) > 6:
            raise NotUnderstood(f"{kind} with {len(inputs)} inputs")
        inputs = [self.read(bit) for bit in inputs]
        for output in outputs:
            self.gate(inputs, self.written(output), table_of(len(inputs), PRIMITIVES[kind]), single)

    def instance(self, module, path, nets, reference, name, pins):
        name = path + name
        bits = {pin: self.bits(module, nets, parts) for pin, parts in pins.items()}
        if reference in self.modules:
            self.submodule(self.modules[reference], name, bits)
        elif reference in GATES:
            self.gate_cell(name, bits, *GATES[reference])
        elif reference in FLOPS:
            self.flop_cell(name, bits, reference)
        elif reference in CLOCK_GATES:
            self.clock_gate_cell(name, bits, CLOCK_GATES[reference])
        else:
            raise NotUnderstood(f"no cell {reference}")

    def new_cell(self, name):
        if name in self.instances:
            raise NotUnderstood(f"two instances {name}")
        self.instances.add(name)
        self.cells[name] = Named([], [], [])

    def submodule(self, module, name, bits):
        """An instance of a module gives its constants; then come all its items."""
        if name in self.instances:
            raise NotUnderstood(f"two instances {name}")
        self.instances.add(name)
        self.only(name, bits, module.ports)
        if module in self.open_modules:
            raise NotUnderstood(f"the module {module.name} in itself")
        outside = {}
        for port in module.ports:
            is_input = module.directions[port] == "input"
            if bits.get(port):
                if len(bits[port]) != module.width(port):
                    raise NotUnderstood(f"{name} has {len(bits[port])} bits at {port}")
                outside[port] = [self.read(bit) if is_input else self.written(bit) for bit in bits[port]]
            elif is_input:
                raise NotUnderstood(f"{name} has nothing at {port}")
        self.module(module, name + "/", self.new_nets(module, outside))

    def only(self, name, bits, pins):
        for pin in bits:
            if pin not in pins:
                raise NotUnderstood(f"{name} has no pin {pin}")

    def cell_pins(self, name, bits, inputs, output):
        """The nets of the input pins, in order, and that of the output pin, which may be open."""
        self.new_cell(name)
        self.only(name, bits, [*inputs, output])
        for pin in inputs:
            if not bits.get(pin):
                raise NotUnderstood(f"{name} has nothing at {pin}")
        for pin in bits:
            self.pins.setdefault(f"{name}/{pin}", Named([], [], []))
        read = [self.read(self.one(bits[pin])) for pin in inputs]
        return read, self.written(self.one(bits[output])) if bits.get(output) else self.new_net()

    def gate_cell(self, name, bits, inputs, function):
        inputs = inputs.split()
        read, output = self.cell_pins(name, bits, inputs, "Y")
        self.gate(read, output, table_of(len(inputs), function), len(inputs) == 1)

    def flop_cell(self, name, bits, flop):
        inputs, number = FLOPS[flop][0].split(), len(self.registers)
        (*read, clock), output = self.cell_pins(name, bits, [*inputs, "CK"], "Q")
        self.registers.append(Register(flop, read, clock, self.drive(output)))
        add_name(self.cells, name, [number], [number])
        add_name(self.pins, f"{name}/CK", [number], edge_starts=[])
        add_name(self.pins, f"{name}/Q", [number])
        for pin in inputs:
            add_name(self.pins, f"{name}/{pin}", ends=[number])

    def clock_gate_cell(self, name, bits, inputs):
        (*enables, clock), output = self.cell_pins(name, bits, [*inputs.split(), "CK"], "GCK")
        self.clock_gates.append(ClockGate(enables, clock, self.drive(output)))


# ------------------------------------------- the numbered design (section 2)

@dataclass
class Function:
    """A gate or a capture: the numbers of its input nets, and its values over its places."""
    inputs: list
    table: tuple
    own: bool = False       # the last place is the register's own bit


class Design:
    """Gates, captures and outputs over the numbers of nets: N nets, of which I are data inputs, and R registers.

    Nets are numbered by what drives them: data inputs, registers, gates, clock gates.
    """

    def __init__(self, walk, clock):
        """`clock` is the net of the clock's port."""
        self.tree = clock_tree(walk, clock)
        gates = ordered([gate for gate in walk.gates if gate.output not in self.tree])
        clock_gates = below_each_other(walk.clock_gates, self.tree)
        inputs = [(name, net) for name, net in walk.port_bits("input") if net != clock]
        nets = [net for _, net in inputs]
        nets += [register.output for register in walk.registers]
        nets += [gate.output for gate in gates]
        self.number = {net: number for number, net in enumerate(nets)}
        self.enable = {gate.output: number for number, gate in enumerate(clock_gates, len(nets))}
        self.N, self.R, self.I = len(nets) + len(clock_gates), len(walk.registers), len(inputs)
        self.input_number = {name: number for number, (name, _) in enumerate(inputs)}
        self.functions = {self.number[gate.output]: Function(self.numbers(gate.inputs, "a gate"), gate.table)
                          for gate in gates}
        self.functions.update((self.enable[gate.output], self.clock_gate(gate)) for gate in clock_gates)
        self.captures = [self.capture(register) for register in walk.registers]
        self.outputs = self.numbers([net for _, net in walk.port_bits("output")], "an output")

    def numbers(self, nets, reader):
        for net in nets:
            if net in self.tree:
                raise NotUnderstood(f"the clock is read as data by {reader}")
            if net not in self.number:
                raise NotUnderstood(f"{reader} reads a net that nothing drives")
        return [self.number[net] for net in nets]

    def enable_above(self, clock):
        """The net of the clock gate above, as a list; it is empty where there is none."""
        above, inverted = self.tree.get(clock, (None, True))
        if inverted:
            raise NotUnderstood("a flop or clock gate without the clock, or with its complement")
        return [self.enable[above.output]] if above else []

    def clock_gate(self, gate):
        """1 where an enable is 1 and, last, the clock gate above is."""
        above = self.enable_above(gate.clock)
        inputs = self.numbers(gate.enables, "a clock gate") + above
        opens = (lambda *bits: any_of(*bits[:-1]) & bits[-1]) if above else any_of
        return Function(inputs, table_of(len(inputs), opens))

    def capture(self, register):
        above = self.enable_above(register.clock)
        inputs = self.numbers(register.inputs, "a flop") + above
        own = FLOPS[register.flop][1] or bool(above)
        return Function(inputs, capture_table(register.flop, bool(above)), own)


def clock_tree(walk, clock):
    """The nets of the tree, each with the clock gate above it, or None, and whether it is inverted."""
    readers = {}
    for one in walk.gates + walk.clock_gates:
        if isinstance(one, ClockGate):
            readers.setdefault(one.clock, []).append(one)
        elif one.buffer:
            readers.setdefault(one.inputs[0], []).append(one)
    tree, todo = {clock: (None, False)}, [clock]
    while todo:
        net = todo.pop()
        above, inverted = tree[net]
        for one in readers.get(net, []):
            if isinstance(one, ClockGate):
                tree[one.output] = one, False
            else:
                tree[one.output] = above, inverted != (one.table == (1, 0))
            todo.append(one.output)
    return tree


def ordered(gates):
    """Each gate after those that it reads: visit the drivers of its inputs first, then put it at the end."""
    driver = {gate.output: gate for gate in gates}
    found, begun, done = [], set(), set()
    for first in gates:
        stack = [(first, iter(first.inputs))] if first.output not in begun else []
        begun.add(first.output)
        while stack:
            gate, inputs = stack[-1]
            below = next((net for net in inputs if net in driver and net not in done), None)
            if below is None:
                stack.pop()
                done.add(gate.output)
                found.append(gate)
            elif below in begun:
                raise NotUnderstood("a loop of gates")
            else:
                begun.add(below)
                stack.append((driver[below], iter(driver[below].inputs)))
    return found


def below_each_other(clock_gates, tree):
    """The clock gates as they are walked, but each after the one above it."""
    found = []

    def visit(gate):
        above = tree.get(gate.clock, (None, False))[0]
        if above and above not in found:
            visit(above)
        if gate not in found:
            found.append(gate)

    for gate in clock_gates:
        visit(gate)
    return found


# ------------------------------------------------ the script (REFERENCE)
# A word is a text, or a list of words where it stood in brackets.

BARE = re.compile(r"(?: \\(.) | (\[[0-9*?:]*\]) | ([^\s;\[\]$\\]+) )", re.VERBOSE | re.DOTALL)


def commands_of(text):
    """The commands of the script, each a list of words."""
    text = text.replace("\\\n", " ") + "\n"
    found, at = [], 0
    while at < len(text):
        if text[at] == "#":
            at = text.index("\n", at)
        elif text[at] in " \t\n\r;":
            at += 1
        else:
            words, at = words_of(text, at, "\n;")
            found.append(words)
    return found


def words_of(text, at, enders):
    """The words from here to one of the enders, and the place after it."""
    words = []
    while True:
        while text[at] in " \t\r":
            at += 1
            if at == len(text):
                raise NotUnderstood("the script ends in a command")
        if text[at] in enders:
            return words, at + 1
        word, at = word_of(text, at)
        words.append(word)
        if at == len(text) or text[at] not in " \t\r\n;]":
            raise NotUnderstood(f"the script after {word}")


def word_of(text, at):
    """The word that begins here, and the place after it."""
    if text[at] == "[":
        return words_of(text, at + 1, "]")
    if text[at] == "{":
        end, depth = at + 1, 1
        while depth:
            if end == len(text):
                raise NotUnderstood("the script has a { without its }")
            depth += (text[end] == "{") - (text[end] == "}")
            end += 1
        return text[at + 1:end - 1], end
    if text[at] == '"':
        match = re.compile(r'"([^"\\$\[]*)"').match(text, at)
        if not match:
            raise NotUnderstood("a quoted word of the script")
        return match[1], match.end()
    word = ""
    while match := BARE.match(text, at):
        word, at = word + (match[1] or match[2] or match[3]), match.end()
    if not word:
        raise NotUnderstood(f"the script at {text[at:at + 20]!r}")
    return word, at


@dataclass
class Claim:
    """A false or multicycle path with its objects not yet looked up; e is how many captures it judges."""
    multicycle: bool
    e: int
    edge: str
    sides: tuple        # of its pairs: the late side, the hold side, or both
    starts: object      # a word, or None for each start
    ends: object


class Script:
    """The clock, the case analyses and the claims of the script; with `hold` also those of hold sides."""

    def __init__(self, text, hold):
        self.clock, self.cases, self.claims, self.hold = None, [], [], hold
        for name, *words in commands_of(text):
            if name == "create_clock":
                self.create_clock(words)
            elif name == "set_case_analysis":
                self.case_analysis(words)
            elif name in ("set_false_path", "set_multicycle_path"):
                self.exception(name, words)
            else:
                raise NotUnderstood(f"the command {name}")
        if self.clock is None:
            raise NotUnderstood("no create_clock")

    def parse(self, words, with_value, without=()):
        """The options with their values, and the other words."""
        options, rest, words = {}, [], iter(words)
        for word in words:
            if not isinstance(word, str) or not word.startswith("-"):
                rest.append(word)
                continue
            if word not in without and (word not in with_value or word in options):
                raise NotUnderstood(f"the option {word}")
            options[word] = next(words, None) if word in with_value else ""
            if options[word] is None or word == "-name" and not isinstance(options[word], str):
                raise NotUnderstood(f"what stands after {word}")
        return options, rest

    def create_clock(self, words):
        options, rest = self.parse(words, ["-name", "-period", "-waveform", "-comment"], ["-add"])
        if not rest:
            return      # a virtual clock, which names nothing
        if self.clock is not None or len(rest) != 1:
            raise NotUnderstood("two clocks with a source")
        self.clock, self.clock_name = rest[0], options.get("-name")

    def case_analysis(self, words):
        values = {"0": 0, "zero": 0, "1": 1, "one": 1}
        if len(words) != 2 or str(words[0]) not in values:
            raise NotUnderstood("set_case_analysis")
        self.cases.append((values[words[0]], words[1]))

    def exception(self, name, words):
        multicycle = name == "set_multicycle_path"
        flags = ["-setup", "-hold"] + ["-start", "-end"] * multicycle
        options, rest = self.parse(words, ["-from", "-rise_from", "-fall_from", "-to", "-comment"], flags)
        e = 1
        if multicycle:
            if len(rest) != 1 or not re.fullmatch("[0-9]{1,2}", str(rest[0])) or not 1 <= int(rest[0]) <= 16:
                raise NotUnderstood("the number of set_multicycle_path")
            e = int(rest.pop()) - 1
        origins = [option for option in ("-from", "-rise_from", "-fall_from") if option in options]
        if rest or len(origins) > 1:
            raise NotUnderstood(f"the words of {name}")
        edge = origins[0][1:5] if origins and origins[0] != "-from" else ""
        sides = self.sides(multicycle, "-setup" in options, "-hold" in options)
        if sides:
            self.claims.append(Claim(multicycle, e, edge, sides, options.get(origins[0]) if origins else None,
                                     options.get("-to")))

    def sides(self, multicycle, setup, hold):
        """The sides that a command claims; a command for hold checks alone has a hold side or none."""
        judged = self.hold and not multicycle
        if hold and not setup:
            return ("hold",) if judged else ()
        return ("late", "hold") if judged and hold == setup else ("late",)


def names_in(objects):
    """The names of a list of objects, each with the class that it is looked for in, or None."""
    kind, text = None, objects
    if isinstance(objects, list):
        if len(objects) != 2 or objects[0] not in ("get_cells", "get_ports"):
            raise NotUnderstood(f"the list {objects}")
        kind, text = objects
    if not isinstance(text, str) or re.search(r'^-|[*?{}"\\]', text):
        raise NotUnderstood(f"the pattern {text}")
    return [(kind, name) for name in re.findall(r"[^ \t\r\n]+", text)]


class Names:
    """What the names of the script stand for, by the class of the objects."""

    def __init__(self, walk, script):
        self.top, self.inputs = walk.top, dict(walk.port_bits("input"))
        sources = set(self.input_bits(script.clock))
        if len(sources) != 1:
            raise NotUnderstood("the clock has not one source")
        self.clock = sources.pop()
        registers = list(range(len(walk.registers)))
        clocks = {}
        add_name(clocks, script.clock_name or self.clock, registers, registers, [])
        self.classes = {"get_ports": self.ports(len(registers)), "get_cells": walk.cells,
                        "get_pins": walk.pins, "get_clocks": clocks}

    def ports(self, registers):
        """The bits of the ports, each under its name and under that of its bus."""
        ports, starts, ends = {}, count(registers), count(registers)
        for port in self.top.ports:
            for bit in self.top.bit_names(port):
                objects = {}
                if self.top.directions[port] == "output":
                    objects["ends"] = [next(ends)]
                elif bit != self.clock:
                    objects["starts"] = [next(starts)]
                for name in {port, bit}:
                    add_name(ports, name, **objects)
        return ports

    def input_bits(self, objects):
        """The input bits of a list of objects that may have nothing else."""
        found = []
        for kind, name in names_in(objects):
            whole = self.top.bit_names(name) if name in self.top.ports else [name]
            if kind == "get_cells" or any(bit not in self.inputs for bit in whole):
                raise NotUnderstood(f"{name} is no input")
            found += whole
        return found

    def look_up(self, objects, field):
        """The starts or ends of a list: of a bare name the first class that has it counts."""
        found = set()
        for kind, name in names_in(objects):
            for one in [kind] if kind else self.classes:
                if name in self.classes[one]:
                    found.update(getattr(self.classes[one][name], field))
                    break
        return sorted(found)


# -------------------------------------------------------- pairs (section 3)
# A start is a number: a register, or R + i for data input i. An end is one
# too: a register, or R + i for output bit i.

@dataclass
class Pair:
    claim: Claim
    side: str
    start: int
    end: int
    moved: frozenset        # the nets that are moved in layer 1 (section 7)


def net_of_start(design, start):
    """Registers come after the data inputs among the nets, and before them among the starts."""
    return design.I + start if start < design.R else start - design.R


def moved_nets(design, start):
    """The start's net, and the outputs of gates with a moved input; gates stand after those that they read."""
    moved = {net_of_start(design, start)}
    for net, function in sorted(design.functions.items()):
        if not moved.isdisjoint(function.inputs):
            moved.add(net)
    return frozenset(moved)


def has_path(design, moved, end):
    """Whether the end reads a moved net: by its inputs, a clock gate's net among them, or as an output port."""
    if end < design.R:
        return not moved.isdisjoint(design.captures[end].inputs)
    return design.outputs[end - design.R] in moved


def pairs_of(design, names, claims):
    """The selected pairs in their order; the first has the number 1."""
    pairs, moved = [], lru_cache(maxsize=None)(lambda start: moved_nets(design, start))
    for claim in claims:
        starts, ends = range(design.R + design.I), range(design.R + len(design.outputs))
        if claim.starts is not None:
            starts = names.look_up(claim.starts, "edge_starts" if claim.edge else "starts")
        if claim.ends is not None:
            ends = names.look_up(claim.ends, "ends")
        for start in starts:
            pairs += [Pair(claim, side, start, end, moved(start)) for end in ends if has_path(design, moved(start), end)
                      for side in claim.sides]
    return pairs


# ------------------------------------------------- the lines (section 4)

NUMBER = "(0|[1-9][0-9]*)"
LITERALS = "((?: -?[1-9][0-9]*)*)"
STEP = re.compile(f"s{LITERALS} 0((?: [1-9][0-9]*)*) 0")


def number_of(text, limit=2 ** 63):
    """A number below the limit; the form of the line has seen to the rest."""
    if len(text) > 19 or int(text) >= limit:
        raise Rejected(f"the number {text[:30]} is too large")
    return int(text)


def literals_of(text):
    """Literals with ascending variables, as the texts of steps and kept clauses have them."""
    literals = [number_of(word.lstrip("-"), 2 ** 31) * (-1 if word[0] == "-" else 1) for word in text.split()]
    if any(abs(low) >= abs(high) for low, high in zip(literals, literals[1:])):
        raise Rejected(f"literals that do not ascend:{text[:60]}")
    return literals


class Certificate:
    """The lines: the version, the kept clauses with their derivations, and the sections of the pairs."""

    def __init__(self, text):
        self.lines, self.at = text.split("\n"), 0
        self.version = number_of(self.line("sdcv-cert ([123])")[1])
        inv = self.line(f"inv {NUMBER} {NUMBER}")
        self.M, kept = number_of(inv[1], 9), number_of(inv[2])
        if self.M == 0 and kept:
            raise Rejected("kept clauses of depth 0")
        self.kept = [self.kept_clause() for _ in self.times(kept)]
        self.inductions = [self.induction(self.M) for _ in self.kept]
        self.sections = {}
        while match := self.next_line(f"pair {NUMBER} (single|fixed|depth {NUMBER})"):
            pair = number_of(match[1])
            if pair in self.sections:
                raise Rejected(f"pair {pair} stands twice")
            kind = match[2].split()[0]
            self.sections[pair] = kind, self.induction(number_of(match[3], 65)) if kind == "depth" else []
        self.line("end")
        if self.lines[self.at:] != [""]:
            raise Rejected("the last line is not `end`")

    def next_line(self, form):
        """The next line if it has this form and ends with a newline."""
        if self.at + 1 >= len(self.lines):
            raise Rejected("the text ends too early")
        match = re.fullmatch(form, self.lines[self.at])
        self.at += bool(match)
        return match

    def line(self, form):
        match = self.next_line(form)
        if not match:
            raise Rejected(f"line {self.at + 1} is not as it has to be: {self.lines[self.at][:60]!r}")
        return match

    def times(self, number):
        """So many lines at least have to be there."""
        if number > len(self.lines):
            raise Rejected("the text ends too early")
        return range(number)

    def kept_clause(self):
        clause = literals_of(self.line(f"k{LITERALS}")[1])
        if not clause or len(clause) > 2 and self.version < 3:
            raise Rejected(f"a kept clause of {len(clause)} literals")
        return clause

    def induction(self, depth):
        """The derivations of the base queries, and last that of the step query."""
        return [self.derivation("b") for _ in range(depth)] + [self.derivation("i")]

    def derivation(self, letter):
        steps = number_of(self.line(f"{letter} {NUMBER}")[1])
        return [self.step() for _ in self.times(steps)]

    def step(self):
        match = self.line(STEP)
        return literals_of(match[1]), [number_of(word) for word in match[2].split()]


# ------------------------------------- the formulas (sections 5 to 9)
# A literal over keys is (key, bit): the key has the bit. A key is (cycle,
# layer, rail, point), and without hazard the rail is 0. How many cycles a query
# has need not be known: its keys lead to no others.

def complement(literal):
    return literal[0], 1 - literal[1]


def exclusive_or(z, x, y):
    """The clauses of z = x xor y."""
    no_z, no_x, no_y = map(complement, (z, x, y))
    return [[no_z, x, y], [no_z, no_x, no_y], [z, no_x, y], [z, x, no_y]]


class Query:
    """One query about a pair, or about a kept clause where `pair` is None.

    `active` says for how many cycles the resets are active.
    """

    def __init__(self, design, run, active, pair=None):
        self.design, self.run, self.active, self.pair = design, run, active, pair
        self.tog, self.chg, self.dif = (design.N + design.R + place for place in range(3))

    # what is read (section 7)

    def bit(self, register, cycle):
        return (cycle, 0, 0, self.design.N + register), 1

    def reads(self, net, cycle):
        """Layer 0: the output of a register reads as its bit."""
        register = net - self.design.I
        return self.bit(register, cycle) if 0 <= register < self.design.R else ((cycle, 0, 0, net), 1)

    def reads_late(self, net, cycle):
        """Layer 1: the start still shows its old bit, which is the other one where it toggles."""
        if net not in self.pair.moved:
            return self.reads(net, cycle)
        if net == net_of_start(self.design, self.pair.start):
            return complement(self.reads(net, cycle))
        return (cycle, 1, 0, net), 1

    def start_bit(self, cycle):
        return self.reads(net_of_start(self.design, self.pair.start), cycle)

    def capture(self, cycle):
        """What the end captures in this cycle: of a register, its bit in the next one."""
        end = self.pair.end
        if end < self.design.R:
            return self.bit(end, cycle + 1)
        return self.reads(self.design.outputs[end - self.design.R], cycle)

    def late_capture(self, cycle):
        """What the end captures where the start still shows its old bit."""
        end = self.pair.end
        if end < self.design.R:
            return (cycle, 1, 0, self.design.N + self.design.R), 1
        return self.reads_late(self.design.outputs[end - self.design.R], cycle)

    # the clauses that define a key (sections 8 and 9)

    def function_clauses(self, function, places, output):
        """For each cube: some place has the other bit, or the output has the cube's value."""
        return [[complement(place) if bit == "1" else place for place, bit in zip(places, cube) if bit != "-"]
                + [output if value else complement(output)]
                for cube, value in cubes_of(function.table, self.run.version)]

    def capture_clauses(self, register, cycle, reads, output):
        """A register's own bit is the old one in no layer: it reads in layer 0."""
        function = self.design.captures[register]
        places = [reads(net, cycle) for net in function.inputs]
        places += [self.bit(register, cycle)] * function.own
        return self.function_clauses(function, places, output)

    def definition(self, key):
        """The clauses that define a key, and where they stand in the list: the cycle, the point of section 9,
        and a number within the point. A key that nothing defines has no clauses."""
        cycle, layer, _, point = key
        design, output = self.design, (key, 1)
        if point < design.N:
            if point < design.I:
                return (cycle, 1, point), self.input_clauses(key)
            reads, function = self.reads_late if layer else self.reads, design.functions[point]
            places = [reads(net, cycle) for net in function.inputs]
            return (cycle, 4 if layer else 2, point), self.function_clauses(function, places, output)
        if layer:
            return (cycle, 5, 0), self.capture_clauses(self.pair.end, cycle, self.reads_late, output)
        if point < design.N + design.R:
            clauses = self.capture_clauses(point - design.N, cycle - 1, self.reads, output) if cycle else []
            return (cycle - 1, 3, point), clauses
        return (cycle, 6, point), self.comparison(point, cycle, output)

    def input_clauses(self, key):
        """The value of a fixed or reset input."""
        cycle, _, _, net = key
        if net in self.run.fixed:
            return [[(key, self.run.fixed[net])]]
        if net in self.run.resets:
            value = self.run.resets[net]
            return [[(key, value if cycle < self.active else 1 - value)]]
        return []

    def comparison(self, point, cycle, z):
        """tog, chg and dif; nothing defines bad."""
        if point == self.tog:
            x, y, edge = self.start_bit(cycle), self.start_bit(cycle - 1), self.pair.claim.edge
            if not edge:
                return exclusive_or(z, x, y)
            if edge == "fall":
                x, y = complement(x), complement(y)
            return [[complement(z), x], [complement(z), complement(y)], [z, complement(x), y]]
        if point == self.chg:
            return exclusive_or(z, self.capture(cycle), self.capture(cycle - 1))
        if point == self.dif:
            return exclusive_or(z, self.late_capture(cycle), self.capture(cycle))
        return []

    # the claims of the query (section 9, points 6 to 11)

    def kept_clauses(self, cycles):
        """Point 6: they hold in so many cycles from 0 on."""
        return [[self.kept_literal(literal, cycle) for literal in clause]
                for cycle in range(cycles) for clause in self.run.kept]

    def kept_literal(self, literal, cycle):
        return (cycle, 0, 0, self.design.N + abs(literal) - 1), int(literal > 0)

    def alternatives(self, t):
        """The captures that may be bad; without sets and hazard each alternative has one condition."""
        claim = self.pair.claim
        if self.pair.side == "hold":
            return [((t - 1, 0, 0, self.dif), 1)]
        point = self.chg if claim.multicycle else self.dif
        return [((t + r, 0, 0, point), 1) for r in range(claim.e)]

    def no_violation(self, t):
        """Point 7."""
        toggles = (t, 0, 0, self.tog), 1
        return [[complement(toggles), complement(condition)] for condition in self.alternatives(t)]

    def violation(self, t):
        """Points 8 to 10: the start toggles at t, and one of the alternatives is bad."""
        conditions = self.alternatives(t)
        bad = [((t, 0, 0, self.design.N + self.design.R + 20 + a), 1) for a in range(len(conditions))]
        return ([[((t, 0, 0, self.tog), 1)], bad]
                + [[complement(chosen), condition] for chosen, condition in zip(bad, conditions)])

    def failure(self, clause, cycle):
        """Point 11."""
        return [[complement(self.kept_literal(literal, cycle))] for literal in clause]

    # the numbered clauses (section 6 and the end of section 9)

    def formula(self, claims):
        """The clauses over variables. The claims need their keys, and each key those of its definition."""
        definitions, todo = {}, [key for clause in claims for key, _ in clause]
        while todo:
            key = todo.pop()
            if key not in definitions:
                definitions[key] = self.definition(key)
                todo += [key for clause in definitions[key][1] for key, _ in clause]
        variable = {key: number for number, key in enumerate(sorted(definitions), 1)}
        listed = [clause for _, clauses in sorted(definitions.values(), key=lambda one: one[0]) for clause in clauses]
        clauses = [{variable[key] if bit else -variable[key] for key, bit in clause} for clause in listed + claims]
        return [clause for clause in clauses if not any(-literal in clause for literal in clause)]


# ------------------------------------------------ derivations (section 10)

def refutes(clauses, steps):
    """None where the steps derive the empty clause, and else what is wrong."""
    known = list(clauses)
    for number, (clause, hints) in enumerate(steps, 1):
        wrong = follows(known, clause, hints)
        if wrong:
            return f"step {number}: {wrong}"
        known.append(set(clause))
    if not steps or steps[-1][0]:
        return "the last clause is not the empty one"
    return None


def follows(known, clause, hints):
    """Whether a step follows from the known clauses by its hints: None, or what is wrong."""
    true = {-literal for literal in clause}
    for place, hint in enumerate(hints, 1):
        if hint > len(known):
            return f"no clause {hint} stands before it"
        left = [literal for literal in known[hint - 1] if -literal not in true]
        if not left:
            return None if place == len(hints) else f"hints after the clause {hint}, which is false"
        if len(left) > 1 or left[0] in true:
            return f"the clause {hint} sets nothing"
        true.add(left[0])
    return "no hint is a false clause"


# ------------------------------------------------- the check (sections 1 and 5)

@dataclass
class Run:
    """What all queries share. `fixed` and `resets` give input nets their values, and their active values."""
    version: int
    kept: list
    M: int
    n: int
    fixed: dict
    resets: dict


def judge(where, clauses, steps):
    wrong = refutes(clauses, steps)
    if wrong:
        raise Rejected(f"{where}: {wrong}")


def check_kept(design, run, number, clause, derivations):
    """Base queries 0 to M-1, and the step query M."""
    for i, steps in enumerate(derivations[:-1]):
        query = Query(design, run, run.n)
        judge(f"kept clause {number}, base query {i}", query.formula(query.failure(clause, run.n + i)), steps)
    query = Query(design, run, 0)
    claims = query.kept_clauses(run.M) + query.failure(clause, run.M)
    judge(f"kept clause {number}, step query {run.M}", query.formula(claims), derivations[-1])


def check_pair(design, run, number, pair, derivations):
    """Base queries 0 to D-1, and the step query D."""
    depth = len(derivations) - 1
    for d, steps in enumerate(derivations[:-1]):
        query = Query(design, run, run.n, pair)
        judge(f"pair {number}, base query {d}", query.formula(query.violation(run.n + 1 + d)), steps)
    query = Query(design, run, 0, pair)
    claims = query.kept_clauses(depth + 1 + pair.claim.e)
    for t in range(1, depth + 1):
        claims += query.no_violation(t)
    claims += query.violation(depth + 1)
    judge(f"pair {number}, step query {depth}", query.formula(claims), derivations[-1])


def check_forms(design, run, pairs, sections):
    """What is asked before any derivation (section 4)."""
    for clause in run.kept:
        if any(abs(literal) > design.R for literal in clause):
            raise Rejected("a kept clause names a register that the design has not")
    for number, (kind, _) in sections.items():
        if not 1 <= number <= len(pairs):
            raise Rejected(f"there is no pair {number}")
        pair = pairs[number - 1]
        start = net_of_start(design, pair.start)
        constant = start in run.fixed or start in run.resets
        if (kind == "single") != (pair.claim.e == 0) or kind == "fixed" and not constant:
            raise Rejected(f"pair {number} is not {kind}")


def check(netlist, script, certificate, hold=False, reset=(), cycles=None):
    """The answer's lines."""
    walk, script = Walk(NetlistText(netlist).modules()), Script(script, hold)
    names = Names(walk, script)
    design = Design(walk, names.inputs[names.clock])
    pairs = pairs_of(design, names, script.claims)
    fixed = input_values(design, [(name, value) for value, objects in script.cases
                                  for name in names.input_bits(objects)])
    resets = input_values(design, reset)
    if not fixed.keys().isdisjoint(resets):
        raise NotUnderstood("an input after --reset has a case analysis")
    cert = Certificate(certificate)
    n = cycles if cycles is not None else int(bool(reset))
    run = Run(cert.version, cert.kept, cert.M, n, fixed, resets)
    check_forms(design, run, pairs, cert.sections)
    for number, (clause, derivations) in enumerate(zip(cert.kept, cert.inductions), 1):
        check_kept(design, run, number, clause, derivations)
    for number, (kind, derivations) in sorted(cert.sections.items()):
        if kind == "depth":
            check_pair(design, run, number, pairs[number - 1], derivations)
    return ([f"accepted {len(cert.sections)} of {len(pairs)}"]
            + [f"pair {number}" for number in sorted(cert.sections)])


def input_values(design, settings):
    """The values of data inputs by the numbers of their nets."""
    values = {}
    for name, value in settings:
        if name not in design.input_number:
            raise NotUnderstood(f"{name} is no data input")
        if values.setdefault(design.input_number[name], value) != value:
            raise NotUnderstood(f"{name} has two values")
    return values


# --------------------------------------------------------------- the words

def reset_list(text):
    """NAME=0 or NAME=1, with commas between them; the value follows the last `=`."""
    found = [item.rpartition("=") for item in text.split(",")]
    if any(not name or value not in ("0", "1") for name, _, value in found):
        raise argparse.ArgumentTypeError("takes NAME=0 or NAME=1, parted by commas")
    if len({name for name, _, _ in found}) != len(found):
        raise argparse.ArgumentTypeError("takes each name once")
    return [(name, int(value)) for name, _, value in found]


def reset_cycles(text):
    if not re.fullmatch("[0-9]{1,20}", text) or int(text) > 64:
        raise argparse.ArgumentTypeError("takes a number from 0 to 64")
    return int(text)


class Words(argparse.ArgumentParser):
    def error(self, message):
        self.print_usage(sys.stderr)
        self.exit(4, f"{self.prog}: {message}\n")


def main():
    words = Words(description="Checks a certificate of sdcv.", allow_abbrev=False)
    words.add_argument("V", help="the netlist, of built-in cells")
    words.add_argument("S", help="the script")
    words.add_argument("CERT", help="the certificate")
    words.add_argument("--hold", action="store_true", help="the hold sides of false paths have numbers too")
    words.add_argument("--reset", type=reset_list, action="append", default=[], metavar="LIST")
    words.add_argument("--reset-cycles", type=reset_cycles, action="append", default=[], metavar="N")
    given = words.parse_args()
    if len(given.reset) > 1 or len(given.reset_cycles) > 1:
        words.error("an option stands twice")
    texts = []
    for name in (given.V, given.S, given.CERT):
        try:
            with open(name, encoding="latin-1", newline="") as file:
                texts.append(file.read())
        except OSError as error:
            print(f"{name}: {error.strerror}", file=sys.stderr)
            return 5
    try:
        print("\n".join(check(*texts, given.hold, sum(given.reset, []), *given.reset_cycles)))
        return 0
    except Rejected as why:
        print(f"rejected {why}")
        return 7
    except NotUnderstood as why:
        print(f"not understood: {why}")
        return 3
    except RecursionError:
        print("not understood: it is nested too deeply")
        return 3


if __name__ == "__main__":
    sys.exit(main())
