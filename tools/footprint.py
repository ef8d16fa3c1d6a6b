#!/usr/bin/env python3
"""footprint.py LIBRARY MEASURED TOOLS HEADER [check | header]: prints what the static library LIBRARY takes: its sections, what it links, which instructions it
has, and for each exported call its stack and the code that it needs. MEASURED has the lines that tools/footprint.c prints, TOOLS is the prefix of the binutils,
HEADER the header. tools/footprint makes the first two, and says what the figures are.

Needs: python3 and binutils for x86-64.
Status: 0 printed, and with `check` all is as the header says; 1 it isn't, or a bound is below what was measured; 2 wrong words, or a missing file or command;
3 the library is not what this can look through."""
import collections
import os
import re
import subprocess
import sys
import tempfile

sys.dont_write_bytecode = True
import common

FRAMES = 33  # of a function that calls itself: one for each of 32 levels, and one that refuses the value at the 33rd
ADDRESS = 8  # bytes of a return address, and of a word that is pushed
IN_REGISTERS = 6  # arguments that are not handed over on the stack

BELOW = re.compile(r"-(0x[0-9a-f]+)\(%rsp")  # what is named below the stack pointer
Instruction = collections.namedtuple("Instruction", "at name operands target")  # target: what a relocation names, or the place or function that is gone to


class Function:
    """The code of a function: its instructions, and the depth of the stack at each, in bytes below the return address."""

    def __init__(self, name, code):
        self.name, self.code = name, code
        self.place = {i.at: n for n, i in enumerate(code)}
        self.depth = [None] * len(code)
        self.follow(0, 0)
        self.tables()

    def fault(self, n, what):
        raise common.Fault("%s+%#x: %s" % (self.name, self.code[n].at, what), 3)

    def grows(self, n):
        """The bytes by which an instruction moves the stack down."""
        i = self.code[n]
        if i.name == "push":
            return ADDRESS
        if i.name == "pop":
            return -ADDRESS
        if not re.search(r",%rsp$|^%rsp$", i.operands) or i.name in ("cmp", "test"):
            return 0
        m = re.match(r"\$(-?0x[0-9a-f]+),%rsp$", i.operands)
        if not m or i.name not in ("sub", "add"):
            self.fault(n, "%s %s moves the stack in a way that can't be followed" % (i.name, i.operands))
        return int(m[1], 16) * (1 if i.name == "sub" else -1)

    def inside(self, i):
        """The number of the instruction of this function that a jump goes to, or nothing where it leaves the function."""
        return self.place[i.target] if isinstance(i.target, int) else None

    def follow(self, start, depth):
        """Goes down every way from an instruction on."""
        ways = [(start, depth)]
        while ways:
            n, depth = ways.pop()
            if self.depth[n] is not None:
                if self.depth[n] != depth:
                    self.fault(n, "it is come to with two depths of the stack, %d and %d" % (self.depth[n], depth))
                continue
            self.depth[n] = depth
            i = self.code[n]
            if i.name == "ret":
                if depth:
                    self.fault(n, "it returns with %d bytes on the stack" % depth)
                continue
            if i.name.startswith("j") and self.inside(i) is not None:
                ways.append((self.inside(i), depth))
            if i.name not in ("jmp", "ud2"):
                ways.append((n + 1, depth + self.grows(n)))

    def tables(self):
        """What no way has come to yet stands in a table of jumps, and is come to by one of the jumps through a register, which all have one depth."""
        through = {self.depth[n] for n, i in enumerate(self.code) if i.name == "jmp" and i.operands.startswith("*")} - {None}
        for n, i in enumerate(self.code):
            if self.depth[n] is None and i.name not in ("nop", "nopw", "nopl", "xchg", "cs", "data16", "int3"):
                if len(through) != 1:
                    self.fault(n, "no way leads here, and jumps through registers have the depths %s" % sorted(through))
                self.follow(n, *through)

    def calls(self):
        """The functions that are called, with the bytes on the stack when they begin, the return address among them but not where the call is a jump."""
        for n, i in enumerate(self.code):
            if self.depth[n] is None:
                continue
            if i.name == "call":
                if i.target is None:
                    self.fault(n, "it calls through a register")
                yield (self.name if i.target == 0 else i.target), self.depth[n] + ADDRESS
            elif i.name.startswith("j") and isinstance(i.target, str):
                yield i.target, self.depth[n]

    def frame(self):
        """The most that the function itself takes, with what it has below the stack pointer."""
        reached = [(i, depth) for i, depth in zip(self.code, self.depth) if depth is not None]
        return max([depth for _, depth in reached] + [depth + int(m, 16) for i, depth in reached for m in BELOW.findall(i.operands)])

    def red_zone(self):
        return any(BELOW.search(i.operands) for i in self.code)


def disassembled(tools, library):
    """The functions of the library by their names."""
    said = subprocess.run([tools + "objdump", "-dr", "-w", "--no-show-raw-insn", library], capture_output=True, text=True, check=True).stdout
    functions, name, code = {}, None, []
    for line in said.splitlines() + ["0 <>:"]:
        head = re.match(r"[0-9a-f]+ <(.*)>:$", line)
        if head:
            if name:
                functions[name] = Function(name, code)
            name, code = head[1], []
        m = re.match(r" *([0-9a-f]+):\t(\S+) *([^\t]*)(?:\t.*R_X86_64_\w+\t(.*))?$", line)
        if m:
            code.append(instruction(*m.groups()))
    return functions


def instruction(at, name, operands, named):
    goes = re.match(r"([0-9a-f]+) <", operands)
    target = None
    if named:
        target = re.sub(r"[-+]0x[0-9a-f]+$", "", named).removeprefix(".text.")
    elif goes:
        target = int(goes[1], 16)
    return Instruction(int(at, 16), name, operands.split("#")[0].strip(), target)


def bound(functions, name, known):
    """The most stack that a function takes below its return address, with all that it calls. One that calls itself is there FRAMES times."""
    if name not in functions:
        return 0  # memset, which is not ours
    if name not in known:
        known[name] = None
        f = functions[name]
        own = max((taken for called, taken in f.calls() if called == name), default=0)
        others = [taken + bound(functions, called, known) for called, taken in f.calls() if called != name]
        known[name] = (FRAMES - 1) * own + max([f.frame()] + others)
    if known[name] is None:
        raise common.Fault("%s calls itself by way of another function" % name, 3)
    return known[name]


# ---- sections, symbols, instructions


def output(*words):
    return subprocess.run(words, capture_output=True, text=True, check=True).stdout


def sections(tools, file):
    """The bytes of code, constants, data and cleared data of a file, and all other sections that a program would have in memory."""
    sizes, other = collections.Counter(), []
    for line in output(tools + "objdump", "-h", "-w", file).splitlines():
        words = line.split()
        if len(words) < 7 or not words[0].isdigit() or "ALLOC" not in line:
            continue
        kind = "code" if "CODE" in line else "constants" if "READONLY" in line else "data" if "CONTENTS" in line else "cleared"
        sizes[kind] += int(words[2], 16)
        if "THREAD_LOCAL" in line or re.match(r"\.(init|fini|ctors|dtors|preinit|eh_frame|tdata|tbss)", words[1]):
            other.append(words[1])
    return sizes, other


def alone(tools, library, name, room):
    """Code and constants of a program that is this one call."""
    out = os.path.join(room, "alone")
    output(tools + "ld", "--gc-sections", "--defsym=memset=0", "-u", name, "-e", name, "-o", out, library)
    sizes, _ = sections(tools, out)
    return sizes["code"], sizes["constants"]


SSE2 = re.compile(
    r"(mov(d|q|aps|ups|apd|upd|dqa|dqu|ss|sd|hlps|lhps|hps|lps|hpd|lpd|mskps|mskpd|ntdq|ntps)|p?and(n?)(ps|pd)?|p?x?or(ps|pd)?|padd[bwdq]|padd[us]{1,2}[bw]"
    r"|psub[bwdq]|psub[us]{1,2}[bw]|pmul(hw|lw|huw|udq)|pmaddwd|pavg[bw]|pcmp(eq|gt)[bwd]|p(min|max)(ub|sw)|pmovmskb|psadbw|ps[lr]l[wdq]|psra[wd]"
    r"|ps[lr]ldq|pshuf(d|hw|lw)|punpck[lh](bw|wd|dq|qdq)|unpck[lh]p[sd]|pack(ss|us)(wb|dw)|packssdw|pextrw|pinsrw|shufp[sd])$"
)
FLOATING = re.compile(r"(add|sub|mul|div|sqrt|min|max|cmp\w*|u?comi|rcp|rsqrt)(ss|sd|ps|pd)$|cvt|f[a-z]")
LATER = re.compile(r"(popcnt|lzcnt|tzcnt|andn|bextr|bls[ir]|blsmsk|bzhi|pdep|pext|mulx|rorx|sarx|shlx|shrx|movbe|crc32|adcx|adox)[lqw]?$")


def instructions(functions):
    """Which instructions of a vector, a floating point or a later set are there."""
    used = {(i.name, "mm" in i.operands) for f in functions.values() for i in f.code}
    vectors = {name for name, wide in used if wide and SSE2.match(name)}
    floating = {name for name, wide in used if FLOATING.match(name)}
    later = {name for name, wide in used if LATER.match(name) or wide and not SSE2.match(name) and not FLOATING.match(name)}
    return vectors, floating, later


# ---- what is printed, and what the header says


def figure(n):
    return format(n, ",")


class Whole:
    """What the library is as a whole."""

    def __init__(self, asked, functions):
        self.sizes, self.other = sections(asked.tools, asked.library)
        symbols = [line.split() for line in output(asked.tools + "nm", asked.library).splitlines()]
        self.links = sorted({words[-1] for words in symbols if words[:-1] == ["U"]})
        self.exported = {words[-1] for words in symbols if len(words) == 3 and words[1] == "T" and words[2].startswith("riddoskam_")}
        self.vectors, self.floating, self.later = instructions(functions)
        self.red_zone = any(f.red_zone() for f in functions.values())

    def lines(self):
        yield "code %s bytes, constants %s, data %s, cleared data %s" % tuple(figure(self.sizes[k]) for k in ("code", "constants", "data", "cleared"))
        yield "links: " + named(self.links)
        yield "sections for threads, constructors or unwinding: " + named(self.other)
        yield "vector instructions: %s; floating point: %s; of later sets: %s" % ("SSE2" if self.vectors else "none", named(self.floating), named(self.later))
        yield "bytes below the stack pointer (the red zone): " + ("used" if self.red_zone else "not used")

    def faults(self, header, measured):
        """Where it is not what the header says: code and constants of a size, and nothing but memset beside them."""
        m = re.search(r"code ([\d,]+) bytes, constants ([\d,]+)", header)
        if not m:
            yield "the header has no words `code N bytes, constants N`"
        for what, says in zip(("code", "constants"), m.groups() if m else ()):
            if int(says.replace(",", "")) < self.sizes[what]:
                yield "the header says %s bytes of %s, and it is %s" % (says, what, figure(self.sizes[what]))
        more = {"data": self.sizes["data"] + self.sizes["cleared"], "links": self.links != ["memset"], "sections": self.other}
        more |= {"floating point": self.floating, "instructions of later sets": self.later}
        for what, there in more.items():
            if there:
                yield "it has %s that the header says it has not" % what
        for name in sorted(self.exported - measured):
            yield "%s is exported, and tools/footprint.c does not call it" % name


def named(names):
    return ", ".join(sorted(names)) or "none"


def rows(asked, functions):
    known = {}
    with open(asked.measured) as f, tempfile.TemporaryDirectory() as room:
        for line in f:
            name, arguments, measured, *what = line.split()
            pushed = max(0, int(arguments) - IN_REGISTERS)
            most = ADDRESS * pushed + ADDRESS + bound(functions, name, known)
            yield name, int(measured), most, *alone(asked.tools, asked.library, name, room), " ".join(what)


def said(header):
    """What the header says of each call: the most stack, and code and constants. A line `riddoskam_NAME STACK SIZE`."""
    found = re.findall(r"^ +(riddoskam_\w+) +([\d,]+) +([\d,]+)$", header, re.M)
    return {name: (int(stack.replace(",", "")), int(size.replace(",", ""))) for name, stack, size in found}


def held(table, header):
    """The calls of which the header says too little, and those of which it says more than there is."""
    there, faults, notes = said(header), [], []
    for name, _, most, code, constants, _ in table:
        if name not in there:
            faults.append("%s: the header says nothing of it" % name)
            continue
        for what, says, due in (("stack", there[name][0], most), ("code and constants", there[name][1], code + constants)):
            if says != due:
                (faults if says < due else notes).append("%s: the header says %s bytes of %s, and it is %s" % (name, figure(says), what, figure(due)))
    return faults, notes


def tables(whole, table):
    lines = [*whole.lines(), "", "| call | stack, at most | touched | code and constants alone | deepest on |", "|---|---|---|---|---|"]
    lines += ["| %s | %s | %s | %s | %s |" % (name, figure(most), figure(n), figure(code + constants), what) for name, n, most, code, constants, what in table]
    return "\n".join(lines)


HEAD = """   What firmware asks before it links (tools/footprint computes and measures it, and `tools/footprint check` holds the library to these figures):
   - code %s bytes, constants %s; no data that is written, nothing thread-local, no constructor, no unwinding;
   - it links memset; its instructions are those of every x86-64 processor, SSE2 among them, and none of floating point;
   - %s;
   - the most stack that a call takes, on any input, with its return address and its arguments and without what memset takes; and the code and constants that
     a program takes which makes this call alone, in bytes:
"""
RED = """as the ABI of x86-64 Linux allows, functions keep bytes below the stack pointer (the red zone, 128 bytes): an interrupt that runs on the stack of a
     call must leave them alone"""


def head(whole, table):
    """The lines at the head of the header."""
    text = HEAD % (figure(whole.sizes["code"]), figure(whole.sizes["constants"]), RED if whole.red_zone else "nothing is kept below the stack pointer")
    return text + "\n".join("       %-36s %7s %7s" % (name, figure(most), figure(code + constants)) for name, _, most, code, constants, _ in table)


def main():
    words = common.Words(__doc__)
    for name in ("library", "measured", "tools", "header"):
        words.add_argument(name)
    words.add_argument("word", nargs="?", choices=["check", "header"])
    asked = words.parse_args()
    common.need(*(asked.tools + tool for tool in ("objdump", "nm", "ld")))
    functions = disassembled(asked.tools, asked.library)
    whole = Whole(asked, functions)
    table = list(rows(asked, functions))
    print(head(whole, table) if asked.word == "header" else tables(whole, table))
    faults = ["%s: it touched %s bytes of stack, above the bound of %s" % (name, figure(n), figure(most)) for name, n, most, *_ in table if n > most]
    notes = []
    if asked.word == "check":
        with open(asked.header) as f:
            header = f.read()
        less, notes = held(table, header)
        faults += [*whole.faults(header, {row[0] for row in table}), *less]
    for line in faults + notes:
        common.told(line, 1)
    return 1 if faults else 0


if __name__ == "__main__":
    common.start(main)
