"""What the Python scripts of the repository share: command lines, faults that end a script in one line, lists of cases, and how programs are asked.

A script's docstring is its help, and the first line of it begins with the usage, up to a colon. A script ends with `start(main)`. Statuses are those of
tools/common.sh: 0 all is well; 1 something differs; 2 a wrong word, a missing file or command, or nothing to do; 3 something that is needed could not be
built or run."""
import argparse
import os
import shutil
import struct
import subprocess
import sys
import threading
import time
from importlib.machinery import SourceFileLoader
from importlib.util import module_from_spec, spec_from_loader

ROOT = os.path.dirname(os.path.dirname(os.path.abspath(__file__)))
ME = os.path.basename(sys.argv[0])


class Fault(Exception):
    """Ends a script with a line and a status."""

    def __init__(self, what, status=2):
        super().__init__(what, status)
        self.status = status

    def __str__(self):
        return self.args[0]


def start(main):
    """Runs a script. What main returns is the status, and what it may meet from outside is said in a line."""
    try:
        status = main()
        sys.stdout.flush()
    except Fault as why:
        status = told(why, why.status)
    except subprocess.CalledProcessError as why:
        last = (why.stderr or b"").decode(errors="replace").strip().splitlines()[-1:]
        status = told(": ".join(["%s ended with status %d" % (why.cmd[0], why.returncode)] + last), 3)
    except BrokenPipeError:
        os.dup2(os.open(os.devnull, os.O_WRONLY), 1)
        status = 141
    except OSError as why:
        status = told("%s: %s" % (why.filename, why.strerror) if why.filename is not None else why, 2)
    except KeyboardInterrupt:
        status = 130
    far("")
    sys.exit(status)


def told(what, status):
    far("")
    if str(what):
        print("%s: %s" % (ME, what), file=sys.stderr)
    return status


class Far:
    """Says on standard error how far a script is while it goes on: in one line that is written over on a terminal, else in a line every ten seconds."""

    def __init__(self):
        self.text, self.began, self.shown = "", time.monotonic(), False
        self.terminal = sys.stderr.isatty()
        self.lock = threading.RLock()
        self.thread = threading.Thread(target=self.tell, daemon=True)

    def tell(self):
        while True:
            time.sleep(1 if self.terminal else 10)
            with self.lock:
                if self.text:
                    print("%s%s: %s, %d s" % ("\r\033[K" if self.terminal else "", ME, self.text, time.monotonic() - self.began),
                          end="" if self.terminal else "\n", file=sys.stderr, flush=True)
                    self.shown = self.terminal

    def clear(self):
        """Takes the line off the terminal, where there is one."""
        if self.shown:
            with self.lock:
                print("\r\033[K", end="", file=sys.stderr, flush=True)
                self.shown = False


class Behind:
    """Standard output on a terminal that has such a line: it is taken off before anything is written."""

    def __init__(self, out, line):
        self.out, self.line = out, line

    def write(self, text):
        self.line.clear()
        return self.out.write(text)

    def __getattr__(self, name):
        return getattr(self.out, name)


FAR = Far()


def far(text):
    """How far the script is, from now on; nothing ends it. Called first behind whatever forks."""
    if text and not FAR.thread.is_alive():
        FAR.thread.start()
        if FAR.terminal:
            sys.stdout = Behind(sys.stdout, FAR)
    FAR.text = text
    if not text:
        FAR.clear()


class Words(argparse.ArgumentParser):
    """A command line: -h prints the script's docstring and what is given beside it, and a misuse is one line."""

    def __init__(self, doc, more=""):
        super().__init__(allow_abbrev=False)
        self.doc, self.more = doc, more

    def format_help(self):
        return self.doc.strip() + "\n" + self.more

    def error(self, message):
        raise Fault("%s; usage: %s" % (message, " ".join(self.doc.partition(":")[0].split())))


def at_least(least):
    """The type of a word that is a whole number from so many on."""

    def number(text):
        if int(text) < least:
            raise argparse.ArgumentTypeError("%s is less than %d" % (text, least))
        return int(text)

    return number


def need(*programs, hint=""):
    for program in programs:
        if shutil.which(program) is None:
            raise Fault("no program %s here%s" % (program, hint))


KIT_TOLD = "RIDDOSKAM_KIT_TOLD"  # set once it was said which kit is here, so that the scripts that this one runs don't say it again


def other_kit():
    """A line where the Rattle kit that is here is another than the one that is meant, the one whose `rt version` prints the line of the file KIT; else
    nothing."""
    with open(os.path.join(ROOT, "KIT")) as f:
        meant = f.read().strip()
    if shutil.which("rt") is None:
        raise Fault('no command rt here: the Rattle kit is missing, which proves and builds all of this; "%s" is meant, and README.md says more' % meant)
    here = subprocess.run(["rt", "version"], capture_output=True, text=True).stdout.strip() or "one without a version"
    return "" if here == meant else 'the Rattle kit here is "%s", and "%s" is meant (file KIT)' % (here, meant)


def need_kit():
    """Another kit is said once and nothing else is made of it, since a newer one may well prove it all."""
    line = other_kit()
    if KIT_TOLD not in os.environ:
        told(line, 0)
        os.environ[KIT_TOLD] = "1"


def unproved(what):
    """The fault that something is not proved or not built."""
    line = other_kit()
    return Fault(what + ("; " + line if line else ""), 3)


def load(name):
    """A script of tools/ as a module."""
    spec = spec_from_loader(name, SourceFileLoader(name, os.path.join(ROOT, "tools", name)))
    module = module_from_spec(spec)
    spec.loader.exec_module(module)
    return module


def run(name, *words, **more):
    """Runs a program of the repository, built first where it is not of today's sources. Where it can't be, tools/run has said so."""
    need_kit()
    done = subprocess.run([os.path.join(ROOT, "tools", "run"), name, *words], **more)
    if done.returncode:
        raise Fault("", done.returncode) if done.returncode in (2, 3) else Fault("the program %s ended with status %d" % (name, done.returncode), 1)
    return done


# ---- lists of cases, see tools/frames


def row(text):
    """A row as a list has it: `-`, or parts in hex joined by `+`, `HEX*N` for N times HEX."""
    if text == "-":
        return b""
    return b"".join(bytes.fromhex(digits) * int(times or 1) for digits, _, times in (piece.partition("*") for piece in text.split("+")))


def cases(path):
    """The cases of a list, each as the number of its line, operation, a, b, the two rows, and the line that must be printed."""
    number = found = 0
    with open(path, errors="replace") as lines:
        for number, line in enumerate(lines, 1):
            line = line.partition("#")[0].strip()
            if not line:
                continue
            left, mark, right = line.partition(" = ")
            try:
                operation, a, b, first, second = left.split()
                case = int(operation, 16), int(a), int(b), row(first), row(second)
                mark = mark if not (case[0] >> 8 or case[1] >> 32 or case[2] >> 32) else ""
                said = " ".join(row(word).hex() if "*" in word else word for word in right.split())
            except ValueError:
                mark = ""
            if not mark:
                raise Fault("%s:%d: it is no case, OPERATION A B FIRST SECOND = LINE" % (path, number))
            found += 1
            yield number, *case, said
    if not found:
        raise Fault("%s: there is no case in it" % path)


def frame(operation, a, b, first, second=b""):
    """A case as the program `replay` reads it."""
    return struct.pack(">BIII", operation, a, b, len(first)) + first + struct.pack(">I", len(second)) + second
