"""A program that stands in the place of `dabplan`: its `timeline` says what a test wants, and all else is what
`dabplan` does."""
import json
import pathlib
import sys

# `timeline` writes down what it was asked in the file `asked` of the folder, and prints the file `says`; without it it
# is no command. Where there is a file `sleeps` it does not end, where there is one `endless` its changes have no end.
STAND_IN = """\
#!{python}
import json, os, sys, time
words = sys.argv[1:]
if words[:1] != ["timeline"]:
    os.execv({program!r}, [{program!r}, *words])
if "sleeps" in os.listdir({folder!r}):
    time.sleep(600)
events = open(words[2]).read()
with open({folder!r} + "/asked", "a") as asked:
    asked.write(json.dumps([words[3:], open(words[1], "rb").read().hex(), events]) + "\\n")
frame = 0
while "endless" in os.listdir({folder!r}):
    frame += 10
    change = dict(kind="swap", time="22:00:00.000", day=0, frame=frame, count=frame % 5000)
    print(json.dumps(dict(change, line=1, dropped=[], added=[])))
if not os.path.exists({folder!r} + "/says"):
    sys.exit(2)
sys.stdout.write(open({folder!r} + "/says").read())
"""
# `timeline` has the swaps that `dabplan live --status` reports over the same events, without what they change.
BY_LIVE = """\
#!{python}
import json, os, re, subprocess, sys
words = sys.argv[1:]
if words[:1] != ["timeline"]:
    os.execv({program!r}, [{program!r}, *words])
options = [word for word in words[3:] if word != "--json"]
with open(words[2], "rb") as events:
    done = subprocess.run([{program!r}, "live", words[1], *options, "--status", "--skip", "4000000000"], stdin=events,
                          capture_output=True, close_fds=False)
for frame, count in re.findall(rb"frame (\\d+) count (\\d+) swap\\n", done.stderr):
    change = dict(kind="swap", time="00:00:00.000", day=0, frame=int(frame), count=int(count))
    print(json.dumps(dict(change, line=1, dropped=[], added=[])))
sys.exit(done.returncode)
"""


def stand_in(program, folder, text=STAND_IN):
    """Writes the program of a folder, beside the real one; returns its path."""
    path = pathlib.Path(folder, "stand-in")
    path.write_text(text.format(python=sys.executable, program=str(program), folder=str(folder)), encoding="utf-8")
    path.chmod(0o755)
    return str(path)


def swap(number, line=12, **others):
    """A line of `dabplan timeline --json`."""
    found = {
        "kind": "swap",
        "time": "22:00:00.000",
        "day": 0,
        "frame": number,
        "count": number % 5000,
        "line": line,
        "dropped": ["sub 1 at 0 size 24 eep 3-A"],
        "added": ["sub 2 at 24 size 24 eep 3-A"],
    }
    return json.dumps({**found, **others}) + "\n"
