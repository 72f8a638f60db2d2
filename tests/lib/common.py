"""Shared by the scripts of tests/: the built programs, how they are run, and the count of passed and failed."""
import os
import pathlib
import resource
import shutil
import subprocess
import sys

TOP = pathlib.Path(__file__).resolve().parents[2]
EXAMPLES = TOP / "examples"
SAMPLES = TOP / "tests" / "faults" / "samples"
SECONDS = 7200


def is_asked(name):
    """Whether a row of this name is to be run: all are, unless './test PATH -k TEXT' asks for those with a text."""
    return os.environ.get("ONLY_ROWS", "") in str(name)


class Tally:
    """Counts what held and what did not, and prints what did not."""

    def __init__(self):
        self.passed = 0
        self.failed = 0

    def hold(self, holds, what):
        """Counts one fact, if it is asked for; `what` is printed if it does not hold."""
        if not is_asked(what):
            return
        if holds:
            self.passed += 1
        else:
            self.failed += 1
            print(f"failed: {what}", flush=True)

    def same(self, what, wanted, found):
        """Counts that two values are the same."""
        if is_asked(what):
            self.hold(wanted == found, f"{what}\n  wanted: {shown(wanted)}\n  found:  {shown(found)}")

    def end(self):
        """Prints the count as the last line, and ends with 0 if nothing failed."""
        print(f"{self.passed} passed, {self.failed} failed")
        sys.exit(1 if self.failed else 0)


def shown(value):
    """A value as a short text."""
    text = repr(value)
    return text if len(text) <= 300 else text[:200] + " .. " + text[-80:]


def dabplan():
    """The path of the program that ./dabplan runs, which is built if the released one has other sources."""
    found = subprocess.run([TOP / "release" / "make", "--program"], check=True, stdout=subprocess.PIPE, text=True)
    return pathlib.Path(found.stdout.strip())


def is_stale(program):
    """Whether a program is missing, or older than a source of this repository."""
    if not program.exists():
        return True
    sources = [TOP / "crates.txt", *(path for crate in (TOP / "crates").iterdir() for folder in ("src", "specs")
                                     for path in (crate / folder).rglob("*"))]
    return any(path.stat().st_mtime > program.stat().st_mtime for path in sources if path.is_file())


def trials():
    """The path of the program of trials, which is built if it is missing or older than its sources."""
    program = TOP / "crates" / "trials" / "out" / "trials"
    if not is_stale(program):
        return program
    made = subprocess.run(["rt", "run"], cwd=TOP / "crates" / "trials", stdin=subprocess.DEVNULL,
                          capture_output=True, text=True, errors="replace")
    if not made.stdout.endswith("no such trial\n"):
        sys.exit(f"trials: not built\n{made.stdout[-2000:]}\n{made.stderr[-4000:]}")
    program.touch()
    return program


def c_compiler():
    """The command of a C compiler: that of the kit if there is one, else one on the path."""
    if shutil.which("rt"):
        kit = pathlib.Path(subprocess.run(["rt", "doc"], check=True, capture_output=True, text=True).stdout.strip()).parent
        return [kit / "toolchain" / "bin" / "clang", "-fuse-ld=lld"]
    found = next(filter(None, map(shutil.which, ("cc", "gcc", "clang"))), None)
    if found is None:
        sys.exit("no C compiler: neither the kit's nor cc, gcc or clang is on the path")
    return [found]


def preloaded(folder, name):
    """The path of a library that is loaded before the C library, made of `name`.c in a folder."""
    library = pathlib.Path(folder, f"{name}.so")
    subprocess.run([*c_compiler(), "-shared", "-fPIC", "-O1", "-nostdlib", "-o", library, TOP / "tests" / "faults" / f"{name}.c"],
                   check=True)
    return library


class Ended:
    """How a run ended: its exit status, negative for a signal, and its output."""

    def __init__(self, status, printed, messages):
        self.status = status
        self.printed = printed
        self.messages = messages

    def lines(self):
        """The two results of an ordinary run that are compared."""
        return self.status, self.printed


def run(words, folder, stdin=b"", stack=None, memory=None, environment=None, pass_fds=()):
    """Runs a program in a folder, with optional limits in KB for stack and memory."""
    def limit():
        if stack is not None:
            resource.setrlimit(resource.RLIMIT_STACK, (stack * 1024, stack * 1024))
        if memory is not None:
            resource.setrlimit(resource.RLIMIT_AS, (memory * 1024, memory * 1024))
        resource.setrlimit(resource.RLIMIT_CORE, (0, 0))

    done = subprocess.run([str(word) for word in words], cwd=folder, input=stdin, capture_output=True,
                          timeout=SECONDS, preexec_fn=limit, env=environment, pass_fds=pass_fds)
    return Ended(done.returncode, done.stdout, done.stderr)


def write(folder, name, content):
    """Writes a file into a folder, and returns its name."""
    pathlib.Path(folder, name).write_bytes(content if isinstance(content, bytes) else content.encode())
    return name
