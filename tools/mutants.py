"""Small changes of a program in Rattle: where one can be made, and what it makes of the text. tools/wrong draws from them.

A change is a Mutant: a file below src/, the place and the length of the text that goes, the text that comes, what sort of change it is, and the function
that it changes. Contracts, `use` lines, declarations of types and comments are never touched."""
import collections
import glob
import os
import re

Mutant = collections.namedtuple("Mutant", "crate file place old new sort function")
Function = collections.namedtuple("Function", "name reach start end head")
Token = collections.namedtuple("Token", "text place")

TOKEN = re.compile(
    r"""//[^\n]*|b"(?:\\.|[^"\\])*"|b'(?:\\.|[^'\\])'|'[a-z_]+\b"""
    r"""|0x[0-9A-Fa-f_]+(?:[iu](?:8|16|32|64|size))?|[0-9][0-9_]*(?:[iu](?:8|16|32|64|size))?|[A-Za-z_][A-Za-z0-9_]*"""
    r"""|<<=|>>=|\.\.=|<=|>=|==|!=|&&|\|\||=>|->|\.\.|\+=|-=|\*=|/=|%=|\|=|&=|::|<<|>>|\S"""
)
WORD = re.compile(r"[A-Za-z_]\w*$")
NUMBER = re.compile(r"(0x[0-9A-Fa-f_]+|[0-9][0-9_]*)([iu](?:8|16|32|64|size))?$")

COMPARISONS = {"<": ("<=", ">"), "<=": ("<", ">="), ">": (">=", "<"), ">=": (">", "<="), "==": ("!=",), "!=": ("==",)}
# What an operand is replaced by so that it counts for nothing: the statement stays, and so the shape of the proof.
NEUTRAL = {"+": ("0",), "-": ("0",), "*": ("1",), "/": ("1",), "&": ("true",), "|": ("0", "false"), "&&": ("true",), "||": ("false",)}
WIDTHS = (0, 1, 2, 3, 4, 8)
OPEN, CLOSE = {"(": ")", "[": "]", "{": "}"}, {")", "]", "}"}
KEYWORDS = {"if", "else", "while", "loop", "match", "return", "let", "mut", "fn", "in", "for", "as", "pub", "use", "const", "break", "continue"}


def tokens(text):
    """The tokens of a file, without comments, contracts and `ghost` lines."""
    found = [Token(m.group(), m.start()) for m in TOKEN.finditer(text) if not m.group().startswith("//")]
    kept, i = [], 0
    while i < len(found):
        word = found[i].text
        opens = next((n for n in (i + 1, i + 2) if found[n].text == "{"), 0) if word in ("requires", "ensures") else 0
        if opens:
            i = behind(found, opens)
        elif word == "ghost":
            while found[i].text != ";":
                i += 1
            i += 1
        else:
            kept.append(found[i])
            i += 1
    return kept


def behind(ts, i):
    """The number of the token behind the bracket that opens at i."""
    depth = 0
    while i < len(ts):
        depth += (ts[i].text in OPEN) - (ts[i].text in CLOSE)
        i += 1
        if depth == 0:
            return i
    raise ValueError("a bracket that is not closed")


def module_of(crate, file):
    return "::".join([crate] + [part for part in file[len("src/") : -len(".rt")].split("/") if part not in ("lib", "main", "mod")])


def functions(crate, file, text, ts):
    """The functions of a file, by their bodies, and its constants, by their values: numbers of tokens, from the first to behind the last; and what stands
    before the body, with the contract."""
    found, home, within, i = [], module_of(crate, file), [], 0
    reach = "private"
    while i < len(ts):
        word = ts[i].text
        while within and i >= within[-1][1]:
            within.pop()
        if word == "pub":
            reach = "crate" if ts[i + 1].text == "(" else "pub"
            i = behind(ts, i + 1) if reach == "crate" else i + 1
        elif word == "extern":
            i += 2
        elif word == "impl":
            k = i
            while ts[k].text != "{":
                k += 1
            within.append((ts[i + 1].text, behind(ts, k)))
            reach, i = "private", k + 1
        elif word in ("fn", "const"):
            name = "::".join([home] + [n for n, _ in within] + [ts[i + 1].text])
            k = i
            while ts[k].text not in ("{", "=") or (word == "fn" and ts[k].text == "="):
                k = behind(ts, k) if ts[k].text in ("(", "[") else k + 1
            end = behind(ts, k) if word == "fn" else next(n for n in range(k, len(ts)) if ts[n].text == ";")
            found.append(Function(name, reach, k + 1, end, text[ts[i].place : ts[k].place]))
            reach, i = "private", end
        else:
            if word in (";", "}") or word in KEYWORDS:
                reach = "private"
            i += 1
    return found


# relations that fix a lent buffer as an equation does, each by a theorem: `Holds` by `index_determined` of crates/index_theorems/proofs/Determined.antt
FIXED = "Holds"


def exact(f):
    """Whether a function's contract fixes its result and all that it is lent to change, by equations: then a program that meets it is the same program.
    A slice that is returned is fixed by its bytes and its address together."""
    signature = re.split(r"\b(?:requires|ensures)(?: \w+)? \{", f.head)[0]
    said = [" ".join(c.split()) for c in re.findall(r"\bensures(?: \w+)? \{(.*?)\}(?=\s*(?:requires\b|ensures\b|$))", f.head, re.S)]
    result = any(re.match(r"(?:\(\w+ : [^)]*\) → )*\(?(?:result ≡ (?!true →)|(?:ran|poured) result |result\.ref_ptr ≡ )", c) for c in said)
    lent = re.findall(r"(\w+): &mut ", signature)
    return (result or "->" not in signature) and all(any(re.search(rf"\b{p}\.new ≡|^{FIXED} .*\b{p}\.new$", c) for c in said) for p in lent)


class Source:
    """A file of a crate, and the changes that can be made in it."""

    def __init__(self, crate, file, text, sets):
        self.crate, self.file, self.text, self.sets = crate, file, text, sets
        self.ts = tokens(text)
        self.functions = functions(crate, file, text, self.ts)
        self.hexes = sorted({t.text for t in self.ts if re.fullmatch(r"0x[0-9A-F]{2}", t.text)})

    def mutants(self):
        for f in self.functions:
            for i in range(f.start, f.end):
                for make in (self.comparison, self.constant, self.name, self.operand, self.swap, self.branch, self.call):
                    for first, last, new, sort in make(i, f.end):
                        place = self.ts[first].place
                        old = self.text[place : self.ts[last].place + len(self.ts[last].text)]
                        if old != new:
                            yield Mutant(self.crate, self.file, place, old, new, sort, f.name)

    def span(self, first, last):
        return self.text[self.ts[first].place : self.ts[last].place + len(self.ts[last].text)]

    # each of these gives the first and the last token that go, the text that comes, and the sort

    def comparison(self, i, end):
        for new in COMPARISONS.get(self.ts[i].text, ()):
            yield i, i, new, "comparison"

    def constant(self, i, end):
        m = NUMBER.match(self.ts[i].text)
        if not m:
            return
        digits, kind = m.group(1).replace("_", ""), m.group(2) or ""
        n = int(digits, 0)
        like = lambda v: (f"0x{v:0{len(digits) - 2}X}" if digits.startswith("0x") else str(v)) + kind
        for v in (n - 1, n + 1):
            if v >= 0:
                yield i, i, like(v), "constant"
        if self.ts[i].text in self.hexes:
            for other in self.hexes:
                yield i, i, other, "constant"
        elif n in WIDTHS and not digits.startswith("0x"):
            for v in WIDTHS:
                yield i, i, like(v), "constant"

    def name(self, i, end):
        """A constant of a set (answers, kinds, limits), a variant of an enum that holds nothing, true and false."""
        word = self.ts[i].text
        if word in ("true", "false"):
            yield i, i, "false" if word == "true" else "true", "constant"
        for members in self.sets:
            if word in members and self.ts[i + 1].text not in ("(", "{", "=>", "|", "::"):
                first = i - 2 if self.ts[i - 1].text == "::" else i
                for other, path in members.items():
                    yield first, i, path, "constant"

    def operand_behind(self, i, end):
        """The number of the last token of the operand that begins at i, or None."""
        if WORD.match(self.ts[i].text) is None and NUMBER.match(self.ts[i].text) is None and self.ts[i].text != "(":
            return None
        k = behind(self.ts, i) if self.ts[i].text == "(" else i + 1
        while k < end:
            if self.ts[k].text in ("(", "["):
                k = behind(self.ts, k)
            elif self.ts[k].text in (".", "::", "as"):
                k += 2
            else:
                break
        return k - 1

    def is_operand(self, i):
        word = self.ts[i].text
        return (WORD.match(word) is not None and word not in KEYWORDS) or NUMBER.match(word) is not None or word in (")", "]")

    def operand(self, i, end):
        word = self.ts[i].text
        if word not in NEUTRAL and word != "%":
            return
        if not self.is_operand(i - 1):
            return
        last = self.operand_behind(i + 1, end)
        if last is None:
            return
        for new in NEUTRAL.get(word, ()):
            yield i + 1, last, new, "operand"
            if self.ts[i - 2].text in ("(", ",", "=", "{", ";", "return", "[", "<", "<=") and self.ts[i - 1].text not in (")", "]"):
                if word in ("+", "*", "&", "|", "&&", "||"):
                    yield i - 1, i - 1, new, "operand"
        if word == "%":
            yield i, last, "", "operand"

    def parts(self, i):
        """The first and the last token of each part between commas of the bracket at i."""
        end, found, first, k = behind(self.ts, i), [], i + 1, i + 1
        while k < end:
            if self.ts[k].text == "," or k == end - 1:
                if first < k:
                    found.append((first, k - 1))
                first = k + 1
                k += 1
            else:
                k = behind(self.ts, k) if self.ts[k].text in OPEN else k + 1
        return found

    def swap(self, i, end):
        """Two arguments of a call, two parts of a variant or two fields of a struct, exchanged."""
        opened = self.ts[i].text
        if opened not in ("(", "{") or not WORD.match(self.ts[i - 1].text) or self.ts[i - 1].text in KEYWORDS:
            return
        parts = self.parts(i)
        if opened == "{":
            if not parts or any(self.ts[a + 1].text != ":" for a, b in parts if b > a) or any(a == b for a, b in parts):
                return
            parts = [(a + 2, b) for a, b in parts]
        elif self.ts[behind(self.ts, i)].text in ("=>", "=", "|"):
            return
        for n, (a, b) in enumerate(parts):
            for c, d in parts[n + 1 :]:
                left, right = self.span(a, b), self.span(c, d)
                if left != right:
                    yield a, d, right + self.text[self.ts[b].place + len(self.ts[b].text) : self.ts[c].place] + left, "swap"

    def branch(self, i, end):
        """A branch that is always taken, or never."""
        if self.ts[i].text not in ("if", "while") or self.ts[i + 1].text == "let":
            return
        k, compared = i + 1, []
        while self.ts[k].text != "{":
            if self.ts[k].text in COMPARISONS:
                compared.append(k)
            k = behind(self.ts, k) if self.ts[k].text in ("(", "[") else k + 1
        condition = self.span(i + 1, k - 1)
        plain = lambda a, b: a == b or (b == a + 2 and self.ts[a + 1].text == ".")
        if len(compared) == 1 and not any(self.ts[n].text in ("&&", "||", "&", "|") for n in range(i + 1, k)):
            at = compared[0]
            if self.ts[at].text in ("==", "!=") and plain(i + 1, at - 1):
                left = self.span(i + 1, at - 1)
                yield i + 1, k - 1, f"{left} == {left}", "branch"
                yield i + 1, k - 1, f"{left} != {left}", "branch"
            elif plain(at + 1, k - 1):
                left = self.span(i + 1, at - 1)
                yield i + 1, k - 1, f"{left} >= 0", "branch"
                yield i + 1, k - 1, f"{left} < 0", "branch"
            elif plain(i + 1, at - 1):
                right = self.span(at + 1, k - 1)
                yield i + 1, k - 1, f"0 <= {right}", "branch"
                yield i + 1, k - 1, f"0 > {right}", "branch"
        else:
            yield i + 1, k - 1, f"({condition}) | true", "branch"
            yield i + 1, k - 1, f"({condition}) & false", "branch"

    def call(self, i, end):
        """A call that stands by itself, left out."""
        if self.ts[i - 1].text not in (";", "{", "}") or not WORD.match(self.ts[i].text) or self.ts[i].text in KEYWORDS:
            return
        k = i + 1
        while self.ts[k].text in ("::", "."):
            k += 2
        if self.ts[k].text == "(":
            k = behind(self.ts, k)
            if self.ts[k].text == ";":
                yield i, k, "", "call"


def constant_sets(folder, crates):
    """The sets that a constant may be exchanged in: the constants of a file, with the path to each, and the variants of an enum that hold nothing."""
    sets = []
    for crate in crates:
        for path in sorted(glob.glob(f"{folder}/{crate}/src/**/*.rt", recursive=True)):
            text = re.sub(r"//[^\n]*", "", open(path).read())
            home = module_of(crate, os.path.relpath(path, f"{folder}/{crate}"))
            named = re.findall(r"^pub const (\w+): (\w+) =", text, re.M)
            for kind in sorted({kind for _, kind in named}):
                members = {name: f"{home}::{name}" for name, k in named if k == kind}
                if len(members) > 1:
                    sets.append((crate, members))
            for enum, body in re.findall(r"^(?:pub(?:\(crate\))? )?enum (\w+) \{(.*?)^\}", text, re.M | re.S):
                bare = re.findall(r"^\s*(\w+),", body, re.M)
                if len(bare) > 1:
                    sets.append((crate, {name: f"{enum}::{name}" for name in bare}))
    return sets


def sources(folder, crate, sets):
    """The files of a crate, each with its changes."""
    own = [{n: re.sub(rf"^{crate}::", "crate::", p) for n, p in members.items()} for home, members in sets]
    for path in sorted(glob.glob(f"{folder}/{crate}/src/**/*.rt", recursive=True)):
        yield Source(crate, os.path.relpath(path, f"{folder}/{crate}"), open(path).read(), own)


def line_of(text, place):
    return text.count("\n", 0, place) + 1
