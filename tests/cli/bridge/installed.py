#!/usr/bin/env python3
"""The bridge as `release/install` installs it; its man page and its service files; and what every module of it has. The
last line is 'N passed, M failed'."""
import ast
import os
import pathlib
import re
import shutil
import subprocess
import sys

import bridges
import units
from bridges import common

TOP, FOLDER = common.TOP, bridges.FOLDER
MODULES = sorted((FOLDER / "dabplan_bridge").glob("*.py"))
STARTS = ("dab-folder", "dab-mux", "dab-bridge", "dab-monitor", "dab-mod")
UNITS = (*STARTS, "dab-alarm@")


class Installed(bridges.Case):
    """Below a folder of its own."""

    def setUp(self):
        super().setUp()
        done = subprocess.run([TOP / "release/install", "here", self.program], cwd=self.folder, capture_output=True, check=False)
        self.assertEqual(done.returncode, 0, done.stderr)
        self.here = self.folder / "here"

    def test_the_bridge_runs_from_there(self):
        self.write("a", b"".join(self.stream("edi", 40)))
        done = subprocess.run([self.here / "bin/dabplan-bridge", "run", "moves.code", "--in", "a", "--out", "b"], cwd=self.folder,
                              capture_output=True, check=False, env={"PATH": "/usr/bin:/bin"})
        self.assertEqual(done.returncode, 0, done.stderr)
        self.filled("edi", self.read("b"), self.plan(40))
        done = subprocess.run([self.here / "bin/dab-monitor"], capture_output=True, check=False)
        self.assertEqual((done.returncode, done.stderr), (2, b"usage: dab-monitor FILE [STATE]\n"))

    def test_every_file_of_it_is_there(self):
        share = self.here / "share/dabplan"
        own = sorted(path.relative_to(FOLDER) for path in FOLDER.rglob("*") if path.is_file() and "__pycache__" not in path.parts)
        there = sorted(path.relative_to(share / "bridge") for path in (share / "bridge").rglob("*") if path.is_file()
                       and "__pycache__" not in path.parts)
        self.assertEqual(there, own)
        self.assertTrue((self.here / "share/man/man1/dabplan-bridge.1").is_file())
        for name in STARTS:
            text = (share / f"bridge/systemd/{name}.service").read_text(encoding="utf-8")
            self.assertNotIn("/usr/local/", text)
            for program in re.findall(rf"{re.escape(str(self.here))}/[\w./-]+", text):
                self.assertTrue(os.access(program, os.X_OK), program)

    def test_documents_link_to_what_is_installed(self):
        documents = sorted(self.here.rglob("*.md"))
        self.assertTrue({"ON_AIR.md", "MONITORING.md", "COMMANDS.md", "README.md"} <= {path.name for path in documents})
        for document in documents:
            for link in re.findall(r"\]\(([^)#\s]+)", document.read_text(encoding="utf-8")):
                if "://" not in link:
                    self.assertTrue((document.parent / link).exists(), f"{document.name}: {link}")


class Pages(bridges.Case):
    """The man page and the service files."""

    def test_the_man_page_has_the_usage_and_each_option(self):
        page = (TOP / "docs/man/dabplan-bridge.1").read_text(encoding="utf-8").replace("\\-", "-")
        guide = (TOP / "docs/guide/ON_AIR.md").read_text(encoding="utf-8")
        for command in ("run", "fic", "insert", "compact", "condition"):
            self.assertIn(f"dabplan-bridge {command} ", page)
            help_text = self.bridge(f"{command} --help")[1].decode() if command != "run" else \
                subprocess.run([sys.executable, str(bridges.BRIDGE), "run", "--help"], capture_output=True, text=True, check=True).stdout
            for option in set(re.findall(r"--[a-z-]+", help_text)) - {"--help"}:
                self.assertIn(option, page, f"{command} {option}")
        for option in re.findall(r"--[a-z-]+", page):
            self.assertIn(option, subprocess.run([sys.executable, str(bridges.BRIDGE), "run", "--help"], capture_output=True, text=True,
                                                 check=True).stdout)
        for option in ("--in", "--out", "--log", "--monitor", "--contacts", "--time", "--clock fig", "--offset", "--skip", "--every",
                       "--resume-at", "--anew", "--tolerance", "--status"):
            self.assertIn(option, guide)

    def test_services_start_in_order(self):
        texts = self.units()
        self.assertEqual(sorted(texts), sorted(path.stem for path in (FOLDER / "systemd").glob("*.service")))
        for name in STARTS[1:4]:
            self.assertIn("Requires=dab-folder.service\n", texts[name])
            self.assertRegex(texts[name], r"(?m)^After=dab-folder\.service")
        self.assertRegex(texts["dab-bridge"], r"(?m)^After=.*dab-mux\.service")
        self.assertIn("RestartPreventExitStatus=2 4 5\n", texts["dab-bridge"])
        self.assertIn("\nExecReload=/bin/kill -HUP $MAINPID\n", texts["dab-bridge"])
        if shutil.which("systemd-analyze") is None:
            self.skipTest("no systemd-analyze: service files are not verified")
        done = subprocess.run(["systemd-analyze", "verify", *map(str, self.copied())], capture_output=True, text=True, check=False)
        self.assertEqual((done.returncode, done.stderr), (0, ""))

    @staticmethod
    def units():
        """The texts of the units, by their names."""
        return {name: (FOLDER / f"systemd/{name}.service").read_text(encoding="utf-8") for name in UNITS}

    def copied(self):
        """Copies of the units whose programs need not be installed here."""
        copies = self.folder / "services"
        copies.mkdir()
        for name, text in self.units().items():
            (copies / f"{name}.service").write_text(re.sub(r"(?m)^ExecStart=/(?!bin/sh)\S+", "ExecStart=/bin/sh", text))
        return sorted(copies.iterdir())

    def test_services_have_no_more_rights_than_they_need(self):
        for name, text in self.units().items():
            for line in ("User=dab", "Group=dab", "NoNewPrivileges=yes", "CapabilityBoundingSet=", "ProtectSystem=strict", "PrivateTmp=yes",
                         "MemoryDenyWriteExecute=yes", "SystemCallErrorNumber=EPERM"):
                self.assertIn(f"\n{line}\n", text, name)
            self.assertIn("\nRestrictAddressFamilies=", text, name)
            if name in STARTS:
                self.assertIn("\nOnFailure=dab-alarm@%n.service\n", text, name)
        self.assertEqual(self.units()["dab-folder"].count("mkfifo -m 0660 "), 1)
        if shutil.which("systemd-analyze") is None:
            self.skipTest("no systemd-analyze: the exposure of services is not known")
        for path in self.copied():
            words = ["systemd-analyze", "security", "--offline=yes", "--no-pager", "--threshold=30", str(path)]
            done = subprocess.run(words, capture_output=True, text=True, check=False)
            if "unrecognized option" in done.stderr:
                self.skipTest("a systemd-analyze that knows no units of files")
            self.assertEqual(done.returncode, 0, done.stdout[-200:] + done.stderr)

    def test_the_line_of_the_service_is_one_of_the_bridge(self):
        text = (FOLDER / "systemd/dab-bridge.service").read_text(encoding="utf-8")
        line = re.search(r"ExecStart=/usr/local/bin/dabplan-bridge ((?:.*\\\n)*.*)\n", text)[1].replace("\\\n", " ")
        self.assertIn("--time now", line)
        self.assertIn("--check", line)
        self.assertIn("time-sync.target", re.search(r"(?m)^After=.*", text)[0])
        line = line.replace("/etc/dab/on_air.plan", "none.plan").replace("/var/lib/dab/plan.log", "none.log")
        done = subprocess.run(["sh", "-c", f"exec '{sys.executable}' '{bridges.BRIDGE}' {line}"], cwd=self.folder, capture_output=True, text=True,
                              check=False)
        self.assertEqual((done.returncode, done.stderr),
                         (1, "dabplan-bridge: cannot read none.plan: No such file or directory\n"))


class Shapes(bridges.Case):
    """What every module has: few lines, short functions that are not nested deeply, types, and words on each public
    item."""

    def functions(self):
        """The functions of all modules, with the names of their files."""
        for path in [*MODULES, FOLDER / "dab-monitor", FOLDER / "dab-contact", FOLDER / "dabplan-bridge"]:
            tree = ast.parse(path.read_text(encoding="utf-8"))
            for node in ast.walk(tree):
                if isinstance(node, (ast.FunctionDef, ast.ClassDef)):
                    yield path.name, node

    def depth(self, node, at=0):
        """How deeply the statements of a node are nested."""
        blocks = (ast.For, ast.While, ast.If, ast.With, ast.Try)
        return max((self.depth(child, at + isinstance(child, blocks)) for child in ast.iter_child_nodes(node)), default=at)

    def test_files_are_short(self):
        for path in MODULES:
            count = len(path.read_text(encoding="utf-8").splitlines())
            self.assertLessEqual(count, 400, path.name)
            self.assertLessEqual(max(map(len, path.read_text(encoding="utf-8").splitlines())), 120, path.name)

    def test_functions_are_short_and_typed(self):
        for name, node in self.functions():
            place = f"{name}: {node.name}"
            if not node.name.startswith("_"):
                inherited = node.name in ("read", "close", "put") and name in ("sources.py", "sinks.py")
                self.assertTrue(ast.get_docstring(node) or inherited or node.name in ("filled", "read"), place)
            if isinstance(node, ast.FunctionDef):
                self.assertLess(node.end_lineno - node.lineno + 1, 40, place)
                self.assertLessEqual(self.depth(node), 3, place)
                self.assertIsNotNone(node.returns, place)
                for argument in node.args.args:
                    self.assertTrue(argument.annotation is not None or argument.arg == "self", place)

    def test_every_except_names_its_case(self):
        for path in [*MODULES, FOLDER / "dab-monitor", FOLDER / "dab-contact"]:
            for node in ast.walk(ast.parse(path.read_text(encoding="utf-8"))):
                if isinstance(node, ast.ExceptHandler):
                    self.assertIsNotNone(node.type, path.name)
                    self.assertNotIn(getattr(node.type, "id", ""), ("Exception", "BaseException"), path.name)

    def test_nothing_but_the_standard_library_is_needed(self):
        for path in [*MODULES, FOLDER / "dab-monitor", FOLDER / "dab-contact"]:
            for node in ast.walk(ast.parse(path.read_text(encoding="utf-8"))):
                names = [alias.name for alias in node.names] if isinstance(node, ast.Import) else \
                    [node.module] if isinstance(node, ast.ImportFrom) and not node.level else []
                for each in names:
                    known = getattr(sys, "stdlib_module_names", None)
                    self.assertTrue(known is None or each.split(".")[0] in known, f"{path.name}: {each}")
            known = getattr(sys, "stdlib_module_names", ())
            self.assertNotIn(path.stem, known)

    def test_what_nothing_else_says_is_one_line(self):
        done = subprocess.run([sys.executable, "-c", "import sys; sys.path.insert(0, sys.argv[1]); from dabplan_bridge import command\n"
                               "command.parser = lambda: 1 / 0\nsys.exit(command.main([]))", str(FOLDER)], capture_output=True, text=True, check=False)
        self.assertEqual(done.returncode, 1)
        self.assertRegex(done.stderr, r"^dabplan-bridge: ZeroDivisionError: division by zero \(<string>, line 2\)\n$")
        self.assertTrue(pathlib.Path(bridges.BRIDGE).stat().st_mode & 0o111)


if __name__ == "__main__":
    units.main()
