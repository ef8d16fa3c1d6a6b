"""What the scripts share that try edits of the library against its proofs: the kit's prover, asked directly, and how an edit is applied."""
import json
import os
import re
import shutil
import subprocess

from common import ROOT, need_kit, unproved

CRATES = os.path.join(ROOT, "crates")
PARTS = ("src", "specs", "proofs")
LONGEST = 900  # seconds that a check may take

class Kit:
    """The words that `rt` puts together for the compiler."""

    def __init__(self):
        need_kit()
        guide = subprocess.run(["rt", "doc"], capture_output=True, text=True).stdout.strip()
        self.home = os.path.dirname(os.path.realpath(guide))
        self.needs = {}
        for line in open(os.path.join(ROOT, "crates.txt")):
            name, colon, needed = line.split("#")[0].partition(":")
            if colon:
                self.needs[name.split()[0]] = needed.split()

    def below(self, crates):
        """What some crates are made of, of this repository."""
        todo, found = [d for c in crates for d in self.needs[c]], set()
        while todo:
            d = todo.pop()
            if d in self.needs and d not in found:
                found.add(d)
                todo += self.needs[d]
        return found

    def prove(self, crate):
        """Proves a crate as it stands: what others need of it is built, and what was checked is kept, both in its folder out."""
        for verb in ("lib", "check"):
            p = subprocess.run(["rt", verb], cwd=f"{CRATES}/{crate}", capture_output=True, text=True)
            if p.returncode:
                raise unproved(f"{crate} itself is not proved: `rt check` in crates/{crate} says why")

    def check(self, crate, folder, kept, sources=()):
        """Proves the crate that stands in a folder, over what was checked before: the status, and what the prover says. Sources are libraries that are taken
        from other folders than their own, and proved along."""
        words = [f"{self.home}/bin/rattle", "check", "--crate-name", crate, "src/lib.rt", "--extern", f"std={self.home}/rlibs/std.rlib"]
        for d in self.needs[crate]:
            if d not in dict(sources):
                words += ["--extern", f"{d}={CRATES}/{d}/out/rlib/{d}.rlib"]
        for d in sorted(self.below([crate])):
            words += ["-L", f"dependency={CRATES}/{d}/out/rlib"]
        words += ["-L", f"dependency={self.home}/rlibs"]
        for name, home in sources:
            words += ["--extern", f"core={self.home}/rlibs/core.rlib", "--lib", f"{name}={home}/src/lib.rt"]
        words += ["--antt-project", f"{self.home}/rattle/logic/antt-project.json", "--logic-built", f"{self.home}/logic_built", "--incremental", kept]
        try:
            p = subprocess.run(words, cwd=folder, capture_output=True, text=True, errors="replace", timeout=LONGEST)
        except subprocess.TimeoutExpired:
            return None, f"the prover did not end within {LONGEST} s"
        return p.returncode, p.stdout + p.stderr

    def code(self, crate):
        """The code of each function of a proved library, as its rlib has it."""
        with open(f"{CRATES}/{crate}/out/rlib/{crate}.rlib/toolchain/mir.json") as f:
            return {name: json.dumps(said) for name, said, *_ in json.load(f)}


def copy_sources(crate, to):
    for part in PARTS:
        if os.path.isdir(f"{CRATES}/{crate}/{part}"):
            shutil.copytree(f"{CRATES}/{crate}/{part}", f"{to}/{part}")


def linked(crate, to):
    """Copies what was checked of a crate: the checked modules are linked, since the prover never writes into one, it puts a new file in its place."""

    def copied(one, other):
        if not one.endswith(".oantt"):
            return shutil.copy2(one, other)
        # A module that two crates keep is the same in both.
        if not os.path.exists(other):
            os.link(one, other)
        return other

    shutil.copytree(f"{CRATES}/{crate}/out/incremental", to, copy_function=copied, dirs_exist_ok=True)


def apply(folder, path):
    """Applies an edit: what is wrong with it, or nothing."""
    file, old, pairs = None, None, 0
    for line in open(path).read().split("\n"):
        if line.startswith("file: "):
            file = line[len("file: ") :]
            if not re.match(r"(src|specs|proofs)/(?!.*\.\.)", file) or not os.path.isfile(f"{folder}/{file}"):
                return f"{file} is no file of the crate"
        elif line.startswith("old: "):
            old = line[len("old: ") :]
        elif line.startswith("new:"):
            if not file or not old:
                return "a `new:` line without its `file:` and `old:`"
            with open(f"{folder}/{file}") as f:
                text = f.read()
            if text.count(old) != 1:
                return f"the old text stands in {file} {text.count(old)} times"
            with open(f"{folder}/{file}", "w") as f:
                f.write(text.replace(old, line[len("new:") :].removeprefix(" "), 1))
            old, pairs = None, pairs + 1
    return "" if pairs else "it has no pair of `old:` and `new:`"
