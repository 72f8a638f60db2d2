#!/usr/bin/env python3
"""Files that are written over: they stay the files that they are, with owner, permissions, access lists, attributes and links; they
are written wherever a plain write works; and whenever the program is killed they have the old bytes or the new ones. Parts that
need root, or a tool of the system, are left out where they can't run. The last line is 'N passed, M failed'."""
import os
import pathlib
import shutil
import signal
import stat
import struct
import subprocess
import tempfile

import common

SCRIPT = (common.EXAMPLES / "night_rate.plan").read_bytes()
# What may lie in place of the file: nothing, a shorter one, a longer one.
SHORTER, LONGER = b"before", b"before " * 9000
NOBODY, MAN = 65534, 12
IS_ROOT = os.geteuid() == 0
BESIDE = (".dabplan-new", ".dabplan-old")


class Folder:
    """A folder with the script and what is compiled of it, and the program."""

    def __init__(self, tally, program, path):
        self.tally = tally
        self.program = program
        self.path = pathlib.Path(path)
        os.chmod(path, 0o755)
        common.write(path, "s.plan", SCRIPT)
        self.run("compile", "s.plan", "whole.code")
        self.run("map", "s.plan", "--svg", "whole.svg")
        self.wanted = {name: (self.path / name).read_bytes() for name in ("whole.code", "whole.svg")}

    def run(self, *words, **options):
        """Runs the program in the folder, and returns its status, output and messages."""
        options = {"cwd": self.path, "capture_output": True, "check": False} | options
        done = subprocess.run([str(self.program), *words], **options)
        return done.returncode, done.stdout, done.stderr

    def commands(self, out):
        """Each command that writes such a file, with what it writes."""
        script = str(self.path / "s.plan")
        return ((("compile", script, out), self.wanted["whole.code"]), (("map", script, "--svg", out), self.wanted["whole.svg"]))

    def names(self):
        """The names in the folder."""
        return sorted(os.listdir(self.path))


def held(path):
    """The bytes of a file; None if there is none."""
    path = pathlib.Path(path)
    return path.read_bytes() if path.exists() else None


def facts(path):
    """What a file is but for its bytes and times."""
    found = os.stat(path)
    lists = {name: os.getxattr(path, name) for name in os.listxattr(path)}
    return found.st_ino, stat.filemode(found.st_mode), found.st_uid, found.st_gid, found.st_nlink, lists


def access_list():
    """An access list (acl(5)) by which user 1 may read, as the system keeps it."""
    entries = ((0x01, 6, 0xFFFFFFFF), (0x02, 4, 1), (0x04, 4, 0xFFFFFFFF), (0x10, 4, 0xFFFFFFFF), (0x20, 0, 0xFFFFFFFF))
    return struct.pack("<I", 2) + b"".join(struct.pack("<HHI", *entry) for entry in entries)


def settings(path):
    """Sets what a file may have, one after the other, and says what was set."""
    os.chmod(path, 0o640)
    yield "permissions"
    if IS_ROOT:
        os.chown(path, NOBODY, MAN)
        os.chmod(path, 0o640)
        yield "owner and group"
    try:
        os.setxattr(path, "user.note", b"on air")
        yield "attribute"
        os.setxattr(path, "system.posix_acl_access", access_list())
        yield "access list"
    except OSError as error:
        print(f"no attributes here: {error}")
    os.link(path, f"{path}.other")
    yield "a second name"


def files_stay(folder):
    """Owner, group, permissions, access list, attributes and hard links; symbolic links lead to the same file."""
    for out in ("o", "l"):
        for words, wanted in folder.commands(out):
            path = folder.path / "o"
            path.write_bytes(LONGER)
            (folder.path / "l").symlink_to("o")
            for what in settings(path):
                for before in (SHORTER, LONGER):
                    path.write_bytes(before)
                    names, known = folder.names(), facts(path)
                    status = folder.run(*words)[0]
                    folder.tally.same(f"{words} over {what}", (0, wanted), (status, held(path)))
                    folder.tally.same(f"{words}: {what}", known, facts(path))
                    folder.tally.same(f"{words}: names with {what}", names, folder.names())
            folder.tally.same(f"{words}: the link", "o", os.readlink(folder.path / "l"))
            for name in ("o", "o.other", "l"):
                (folder.path / name).unlink()


def new_files(folder):
    """A new file has the permissions of any new file; through a link to nothing too."""
    (folder.path / "l").symlink_to("target")
    for out, path in (("o", "o"), ("l", "target"), (str(folder.path / "o"), "o")):
        for words, wanted in folder.commands(out):
            names = folder.names()
            status = folder.run(*words, umask=0o027)[0]
            made = folder.path / path
            mode = stat.filemode(made.stat().st_mode) if made.exists() else None
            folder.tally.same(f"{words}: new", (0, wanted, "-rw-r-----"), (status, held(made), mode))
            made.unlink(missing_ok=True)
            folder.tally.same(f"{words}: names", names, folder.names())
    (folder.path / "l").unlink()


def odd_names(folder):
    """Names as long as a name can be, also of characters of several bytes; a folder whose name is no UTF-8."""
    for name in ("n" * 243, "n" * 244, "n" * 249, "n" * 250, "n" * 255, "é" * 127, "n" + "é" * 127):
        for before in (None, SHORTER, LONGER):
            path = folder.path / name
            path.unlink(missing_ok=True)
            if before is not None:
                path.write_bytes(before)
            for words, wanted in folder.commands(name):
                folder.tally.same(f"{words[0]} to a name of {len(name.encode())} bytes", (0, wanted),
                                  (folder.run(*words)[0], held(path)))
        path.unlink(missing_ok=True)
    odd = os.path.join(os.fsencode(folder.path), b"odd\xff")
    os.mkdir(odd)
    for words, wanted in folder.commands("o"):
        for _ in range(2):
            status = folder.run(*words, cwd=odd)[0]
            folder.tally.same(f"{words[0]} in a folder that is no UTF-8", (0, wanted, [b"o"]),
                              (status, held(os.fsdecode(odd) + "/o"), os.listdir(odd)))
        pathlib.Path(os.fsdecode(odd), "o").unlink(missing_ok=True)
    shutil.rmtree(odd)


def of_another(folder):
    """As somebody else: a file that may be written in a folder that may not, or where it may not be removed; a folder behind one
    that can't be searched; and what may not be written."""
    if not IS_ROOT:
        return
    below = folder.path / "below"
    script = str(folder.path / "s.plan")
    for mode, name in ((0o755, "a folder that may not be written"), (0o1777, "a sticky folder")):
        below.mkdir()
        below.chmod(mode)
        path = below / "o"
        for before in (SHORTER, LONGER):
            path.write_bytes(before)
            path.chmod(0o666)
            known = facts(path)
            status = folder.run("compile", script, str(path), user=NOBODY, group=NOBODY)
            folder.tally.same(f"in {name}", (0, folder.wanted["whole.code"], known, ["o"]),
                              (status[0], held(path), facts(path), os.listdir(below)))
        path.write_bytes(SHORTER)
        path.chmod(0o644)
        ended = folder.run("compile", script, str(path), user=NOBODY, group=NOBODY)
        said = (1, f"cannot write {path}\n".encode(), f"{path}: error: Permission denied\n".encode())
        folder.tally.same(f"no permission in {name}", (*said, SHORTER), (*ended, held(path)))
        shutil.rmtree(below)
    below.mkdir(0o700)
    (below / "open").mkdir()
    (below / "open").chmod(0o777)
    for _ in range(2):
        status = folder.run("compile", "-", "o", cwd=below / "open", input=SCRIPT, user=NOBODY, group=NOBODY)[0]
        folder.tally.same("behind a folder that can't be searched", (0, folder.wanted["whole.code"]),
                          (status, held(below / "open" / "o")))
    shutil.rmtree(below)


def mounted(folder):
    """A file that another one is mounted on."""
    if shutil.which("unshare") is None:
        return
    path = folder.path / "o"
    path.write_bytes(LONGER)
    (folder.path / "behind").write_bytes(LONGER)
    line = f"mount --bind behind o && exec '{folder.program}' compile s.plan o"
    done = subprocess.run(["unshare", "-m", "bash", "-c", line], cwd=folder.path, capture_output=True, check=False)
    if b"dabplan" not in done.stderr and (b"unshare" in done.stderr or b"mount" in done.stderr):
        print(f"nothing can be mounted here: {done.stderr}")
    else:
        folder.tally.same("a mounted file", (0, folder.wanted["whole.code"], LONGER),
                          (done.returncode, held(folder.path / "behind"), held(path)))
    for name in ("o", "behind"):
        (folder.path / name).unlink()


def descriptors(folder):
    """Names of descriptors are written where the descriptor is: what was written before and is written afterwards stays."""
    code, before = folder.wanted["whole.code"], b"before\n"
    line = b"instructions 23 labels 7 configurations 2\n"
    printed = folder.run("compile", "s.plan", "o")[1]
    line = printed or line
    (folder.path / "o").unlink()
    script = f"'{folder.program}' compile s.plan"
    for what, command, wanted in (
        ("/dev/stdout >>", f"{script} /dev/stdout >>f", before + code + line),
        ("/dev/stdout >", f"{script} /dev/stdout >f", code + line),
        ("/proc/self/fd/1", f"{{ echo a; {script} /proc/self/fd/1; echo b; }} >f", b"a\n" + code + line + b"b\n"),
        ("/dev/fd/5 >>", f"{script} /dev/fd/5 5>>f >/dev/null", before + code),
        ("/dev/fd/5 >", f"{{ echo a >&5; {script} /dev/fd/5; }} 5>f >/dev/null", b"a\n" + code),
        ("a link to /dev/fd/5", f"ln -s /dev/fd/5 l; {script} l 5>>f >/dev/null; rm l", before + code),
    ):
        (folder.path / "f").write_bytes(before)
        done = subprocess.run(["bash", "-c", command], cwd=folder.path, capture_output=True, check=False)
        folder.tally.same(f"compile to {what}", (0, wanted), (done.returncode, held(folder.path / "f")))
    common.write(folder.path, "e.events", b"frames 2")
    folder.run("compile", "s.plan", "c")
    folder.run("play", "c", "e.events", "p")
    frames = (folder.path / "p").read_bytes()
    for what, command, wanted in (("/dev/stdout >>", "/dev/stdout >>f", before + frames + b"played 2 frames\n"),
                                  ("/dev/fd/5 >>", "/dev/fd/5 5>>f >/dev/null", before + frames)):
        (folder.path / "f").write_bytes(before)
        done = subprocess.run(["bash", "-c", f"'{folder.program}' play c e.events {command}"], cwd=folder.path, check=False)
        folder.tally.same(f"play to {what}", (0, wanted), (done.returncode, held(folder.path / "f")))
    with tempfile.TemporaryFile(dir=folder.path) as unnamed:
        number = unnamed.fileno()
        ended = folder.run("compile", "s.plan", f"/proc/self/fd/{number}", pass_fds=(number,))
        unnamed.seek(0)
        folder.tally.same("a file without a name", (0, code), (ended[0], unnamed.read()))
    for name in ("f", "e.events", "c", "p"):
        (folder.path / name).unlink()


def leftovers(folder):
    """What a program that was killed left beside OUT is taken again, whatever it is; other files stay."""
    others = [f"o.{number}.new" for number in range(101)]
    for name in others:
        common.write(folder.path, name, b"another's")
    for before in (None, SHORTER):
        for name in BESIDE:
            common.write(folder.path, f"o{name}", LONGER)
        if before is not None:
            common.write(folder.path, "o", before)
        status = folder.run("compile", "s.plan", "o")[0]
        folder.tally.same("leftovers", (0, folder.wanted["whole.code"]), (status, held(folder.path / "o")))
        left = set(folder.names())
        folder.tally.hold(before is None or not left & {f"o{name}" for name in BESIDE}, f"leftovers: {left}")
        folder.tally.hold(set(others) <= left and f"o{BESIDE[0]}" not in left, f"leftovers: {left}")
    for name in (*others, "o"):
        (folder.path / name).unlink()
    for name in BESIDE:
        (folder.path / f"o{name}").unlink(missing_ok=True)
        (folder.path / f"o{name}").mkdir()
    for _ in range(2):
        status = folder.run("compile", "s.plan", "o")[0]
        folder.tally.same("folders of these names", (0, folder.wanted["whole.code"]), (status, held(folder.path / "o")))
    for name in BESIDE:
        (folder.path / f"o{name}").rmdir()
    (folder.path / "o").unlink()


def killed(folder):
    """Whenever the program is killed, the file has the old bytes or the new ones, and the next run leaves nothing beside it."""
    library = common.preloaded(folder.path, "end")
    wanted = folder.wanted["whole.code"]
    for before in (None, SHORTER, LONGER, wanted[:-1], wanted):
        seen = set()
        for number in range(1, 60):
            path = folder.path / "o"
            path.unlink(missing_ok=True)
            if before is not None:
                path.write_bytes(before)
                path.chmod(0o600)
            environment = dict(os.environ, LD_PRELOAD=str(library), END_AT=str(number))
            status = folder.run("compile", "s.plan", "o", env=environment)[0]
            found = held(path)
            folder.tally.hold(found in (before, wanted), f"killed before call {number}: neither old nor new")
            mode = stat.filemode(path.stat().st_mode) if path.exists() else None
            folder.tally.hold(before is None or mode == "-rw-------", f"killed before call {number}: {mode}")
            seen.add(found == wanted)
            if status != -signal.SIGKILL:
                folder.tally.same(f"after {number} calls", (0, wanted), (status, found))
                break
            ended = folder.run("compile", "s.plan", "o")[0]
            left = [name for name in folder.names() if name in (f"o{end}" for end in BESIDE[:1 if before is None else 2])]
            folder.tally.same(f"killed before call {number}, and run again", (0, wanted, []), (ended, held(path), left))
        folder.tally.same(f"killed over {before and before[:9]}: at some call each is there", {before == wanted, True}, seen)
        folder.tally.hold(number > 4, f"only {number} calls")
    (folder.path / "o").unlink()


def refused(folder):
    """A file is not opened before what is written to it is whole: a refused script leaves it as it is, its times too."""
    common.write(folder.path, "bad.plan", SCRIPT + b" join")
    path = folder.path / "o"
    path.write_bytes(SHORTER)
    for out in ("o", "/dev/fd/5"):
        before = path.stat()
        done = subprocess.run(["bash", "-c", f"'{folder.program}' compile bad.plan {out} 5>>o"], cwd=folder.path, capture_output=True,
                              check=False)
        folder.tally.same(f"a refused script to {out}", (1, SHORTER, before.st_mtime_ns, before.st_ctime_ns),
                          (done.returncode, held(path), path.stat().st_mtime_ns, path.stat().st_ctime_ns))
    path.unlink()
    (folder.path / "bad.plan").unlink()


def main():
    """The main program."""
    tally = common.Tally()
    with tempfile.TemporaryDirectory() as place:
        # Where others can run it.
        os.chmod(place, 0o755)
        program = shutil.copy(common.dabplan(), place)
        for part in (files_stay, new_files, odd_names, of_another, mounted, descriptors, leftovers, killed, refused):
            with tempfile.TemporaryDirectory() as folder:
                part(Folder(tally, program, folder))
    tally.end()


if __name__ == "__main__":
    main()
