#!/usr/bin/env python3
"""The Debian package that `release/deb` makes: installed below a folder, used, and removed. The last line is 'N passed,
M failed'."""
import os
import pathlib
import re
import shutil
import subprocess
import tempfile
import unittest

import bridges
import units
from bridges import common

TOP = common.TOP
PROGRAMS = ("dabplan", "dabplan-bridge", "dab-monitor", "dab-contact")
HAS_DPKG = shutil.which("dpkg-deb") is not None and shutil.which("dpkg") is not None
# What a grammar of the guide calls by words in quotes.
WORD = re.compile(r'"([a-z]+)"')


def run(*words, **options):
    """What a command does."""
    return subprocess.run([str(word) for word in words], capture_output=True, text=True, check=False, **options)


@unittest.skipUnless(HAS_DPKG, "no dpkg: the package is not made")
class Package(bridges.Case):
    """The package."""

    @classmethod
    def setUpClass(cls):
        super().setUpClass()
        done = run(TOP / "release/deb", cls.codes.name, cls.program)
        assert done.returncode == 0, done.stderr
        cls.package = pathlib.Path(done.stdout.strip())

    def setUp(self):
        super().setUp()
        self.root = self.folder / "root"
        (self.root / "var/lib/dpkg/updates").mkdir(parents=True)
        (self.root / "var/lib/dpkg/info").mkdir()
        for name in ("status", "available"):
            (self.root / "var/lib/dpkg" / name).touch()

    def dpkg(self, *words):
        """Runs dpkg over the folder, whose scripts run outside of it."""
        return run("dpkg", f"--root={self.root}", "--force-script-chrootless", "--force-depends", "--force-not-root",
                   "--force-bad-path", *words)

    def files(self):
        """The files below the folder that are not dpkg's."""
        return sorted(str(path.relative_to(self.root)) for path in self.root.rglob("*")
                      if not path.is_dir() and "var/lib/dpkg" not in str(path))

    def test_what_it_says(self):
        text = run("dpkg-deb", "-f", self.package).stdout
        version = run(self.program, "--version").stdout.split()[1]
        for line in ("Package: dabplan\n", f"Version: {version}\n", "Depends: libc6 (>= 2.34), python3 (>= 3.9)\n",
                     " No licence was chosen for it: whoever wants to pass this package on asks its owner first.\n"):
            self.assertIn(line, text)
        self.assertEqual(self.package.name,
                         f"dabplan_{version}_{run('dpkg', '--print-architecture').stdout.strip()}.deb")

    def test_what_is_in_it(self):
        lines = [line.split(None, 5) for line in run("dpkg-deb", "-c", self.package).stdout.splitlines()]
        names = [line[5].split(" -> ")[0] for line in lines]
        self.assertEqual({line[1] for line in lines}, {"root/root"})
        for wanted in (*(f"./usr/bin/{name}" for name in PROGRAMS), "./usr/share/man/man1/dabplan.1.gz",
                       "./usr/share/man/man1/dabplan-bridge.1.gz",
                       "./usr/share/bash-completion/completions/dabplan", "./usr/share/dabplan/docs/guide/ON_AIR.md",
                       "./usr/share/dabplan/docs/guide/page.png", "./usr/share/dabplan/examples/on_air.plan",
                       "./usr/share/doc/dabplan/copyright",
                       "./usr/share/doc/dabplan/THIRD_PARTY", "./usr/lib/sysusers.d/dab.conf",
                       "./usr/lib/systemd/system/dab-bridge.service",
                       "./usr/lib/systemd/system/dab-alarm@.service", "./usr/share/vim/vimfiles/syntax/dabplan.vim",
                       "./usr/share/vim/vimfiles/ftdetect/dabplan.vim", "./usr/share/vim/vimfiles/compiler/dabplan.vim",
                       "./etc/dab/"):
            self.assertIn(wanted, names)
        self.assertEqual([name for name in names if "__pycache__" in name or "/." in name[2:]], [])

    def test_installed_used_and_removed(self):
        done = self.dpkg("-i", self.package)
        self.assertEqual(done.returncode, 0, done.stderr)
        self.assertIn("usr/bin/dabplan", self.files())
        if shutil.which("systemd-sysusers"):
            self.assertIn("\ndab:", "\n" + (self.root / "etc/passwd").read_text(encoding="ascii"))
        for path in (self.root / "usr/lib/systemd/system").glob("*.service"):
            text = path.read_text(encoding="utf-8")
            self.assertNotIn("/usr/local/", text)
            self.assertNotIn(str(self.folder), text)
            for program in re.findall(r"/usr/bin/dab[\w-]*", text):
                self.assertTrue(os.access(f"{self.root}{program}", os.X_OK), program)
        # Each program runs from there, and finds the others.
        self.write("a", b"".join(self.stream("edi", 40)))
        done = run(self.root / "usr/bin/dabplan-bridge", "run", "moves.code", "--in", "a", "--out", "b",
                   cwd=self.folder, env={"PATH": "/usr/bin:/bin"})
        self.assertEqual(done.returncode, 0, done.stderr)
        self.filled("edi", self.read("b"), self.plan(40))
        self.assertEqual(run(self.root / "usr/bin/dab-contact", "16", "open").returncode, 2)
        self.assertEqual(run(self.root / "usr/bin/dab-monitor").returncode, 2)
        plan = self.root / "etc/dab/on_air.plan"
        plan.write_text(bridges.MOVES, encoding="ascii")
        done = self.dpkg("--purge", "dabplan")
        self.assertEqual(done.returncode, 0, done.stderr)
        left = [name for name in self.files() if not name.startswith(("etc/passwd", "etc/group", "etc/shadow",
                                                                      "etc/gshadow", "etc/.pwd.lock"))]
        self.assertEqual(left, ["etc/dab/on_air.plan"], "a plan is not the package's, and stays")


class Vim(unittest.TestCase):
    """The files for vim."""

    def test_every_word_of_the_grammar_is_in_the_syntax(self):
        grammar = (TOP / "docs/guide/SCRIPTS.md").read_text(encoding="utf-8").split("\n## Grammar\n")[1].split("\n|")[0]
        syntax = (TOP / "release/vim/syntax/dabplan.vim").read_text(encoding="utf-8")
        words = set(re.findall(r"[a-z]+", " ".join(re.findall(r"(?m)^syntax keyword dabplan\w+ (.*)$", syntax))))
        self.assertEqual(set(WORD.findall(grammar)) - words, set())

    @unittest.skipUnless(shutil.which("vim"), "no vim: its files are not read")
    def test_the_compiler_finds_the_place(self):
        """The list that vim makes of what `dabplan compile` says."""
        lines = ["x.plan:7:6: error: expected a number", "    wait x", "         ^", "x.plan:7: hint: write a number",
                 "x.plan:9: warning: short"]
        script = ["set runtimepath^=" + str(TOP / "release/vim"), "syntax on", "filetype on", "compiler! dabplan",
                  "cgetexpr " + str(lines).replace("\\", ""), "redir! > found",
                  "silent echo map(getqflist(), '[v:val.lnum, v:val.col, v:val.type]')",
                  "new x.plan", "silent echo &filetype", "redir END", "qall!"]
        with tempfile.TemporaryDirectory() as name:
            folder = pathlib.Path(name)
            (folder / "try.vim").write_text("\n".join(script) + "\n")
            run("vim", "-Nes", "-u", "NONE", "-i", "NONE", "-S", "try.vim", cwd=folder, stdin=subprocess.DEVNULL,
                timeout=60)
            found = (folder / "found").read_text().split("\n")
        self.assertIn("[[7, 6, 'e'], [7, 0, 'I'], [9, 0, 'w']]", found)
        self.assertIn("dabplan", found, "the type of the file")


if __name__ == "__main__":
    units.main()
