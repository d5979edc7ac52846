"""The shell's side: manual, completion, install, and the gate's script. These need no numpy."""

from __future__ import annotations

import importlib.machinery
import importlib.util
import os
import re
import shutil
import subprocess
import tempfile
import unittest
from pathlib import Path

TOP = Path(__file__).resolve().parents[3]
MANUAL = TOP / "docs" / "bmmc.1"
COMPLETION = TOP / "clients" / "bash" / "bmmc"
WORDS = ["carry", "plan", "new", "load", "run", "status", "dump", "drop", "detect", "drill", "flip"]
FURTHER = ["kind", "batch", "batch-run", "mirror"]
KINDS = ["identity", "reversal", "bit-reversal", "transpose", "gray", "inverse-gray", "rotation", "bits", "rows", "walsh"]


def needs_command(name: str):
    """Skips a test where a command is not installed."""
    return unittest.skipUnless(shutil.which(name), f"the command {name} is not installed")


class Manual(unittest.TestCase):
    def setUp(self) -> None:
        self.text = MANUAL.read_text(encoding="utf-8").replace("\\-", "-")

    @needs_command("groff")
    def test_it_renders_without_warnings(self) -> None:
        ended = subprocess.run(["groff", "-man", "-ww", "-Tutf8", str(MANUAL)], capture_output=True, text=True)
        self.assertEqual((ended.returncode, ended.stderr), (0, ""))
        self.assertIn("permute records that are too many for memory", " ".join(ended.stdout.split()))

    def test_the_words_are_those_of_the_script(self) -> None:
        help = (TOP / "bmmc").read_text(encoding="utf-8").partition('HELP = """')[2].partition('"""')[0]
        self.assertEqual(sorted(re.findall(r"^  bmmc ([\w-]+)", help, re.MULTILINE)), sorted(WORDS + FURTHER + ["install", "uninstall"]))

    def test_it_has_each_word_and_an_example_of_each_kind(self) -> None:
        synopsis = self.text.partition(".SH SYNOPSIS")[2].partition(".SH")[0]
        for word in WORDS + FURTHER:
            self.assertIn(f".BI {word} ", self.text)
            self.assertRegex(synopsis, rf"\b{word}\b")
        for kind in KINDS:
            self.assertIn(f'.B {kind}\n', self.text)
            self.assertIn(f'kind = "{kind}"', self.text)

    def test_it_has_each_status_of_the_formats(self) -> None:
        formats = (TOP / "docs" / "FORMATS.md").read_text(encoding="utf-8")
        table = re.findall(r"^\| (\d+) \| `?(.*?)`? \|.*\|.*\|$", formats, re.MULTILINE)
        self.assertGreater(len(table), 20)
        wanted = {f".B {code}" if words == "none" else f".B {code} {words}" for code, words in table}
        self.assertEqual(wanted - set(self.text.splitlines()), set())

    def test_the_examples_that_it_names_are_there(self) -> None:
        names = set(re.findall(r"(?<![\w-])([\w-]+\.toml)", self.text)) - {"job.toml"}
        names -= {"found.toml"}
        self.assertEqual(names, {"transpose.toml", "checkpoint.toml", "list.toml", "drill.toml", "sums.toml"})
        for name in names | {f"{kind}.toml" for kind in KINDS}:
            self.assertTrue((TOP / "examples" / name).is_file(), name)


@needs_command("bash")
class Completion(unittest.TestCase):
    def setUp(self) -> None:
        made = tempfile.TemporaryDirectory(prefix="bmmc-test-")
        self.addCleanup(made.cleanup)
        self.folder = Path(made.name)
        for name in ("gray.toml", "notes.txt", "with space.toml", "script/crates.txt", "folder/inner.toml"):
            (self.folder / name).parent.mkdir(exist_ok=True)
            (self.folder / name).touch()

    def completed(self, *words: str) -> list[str]:
        """What bash offers for the last of these words."""
        script = 'source "$0"; COMP_WORDS=("$@"); COMP_CWORD=$(($# - 1)); _bmmc "$1"; printf "%s\\n" "${COMPREPLY[@]}"'
        ended = subprocess.run(["bash", "-c", script, str(COMPLETION), *words], cwd=self.folder, capture_output=True, text=True, check=True)
        self.assertEqual(ended.stderr, "")
        return [line for line in ended.stdout.split("\n") if line]

    def test_first_come_the_words(self) -> None:
        self.assertEqual(self.completed("bmmc", ""), WORDS + FURTHER)
        self.assertEqual(self.completed("bmmc", "d"), ["dump", "drop", "detect", "drill"])

    def test_the_script_of_the_repository_has_more_words(self) -> None:
        self.assertEqual(self.completed("script/bmmc", ""), WORDS + FURTHER + ["help", "install", "uninstall"])

    def test_then_come_job_texts_and_folders(self) -> None:
        for word in WORDS[:-1]:
            self.assertEqual(sorted(self.completed("bmmc", word, "")), ["folder", "gray.toml", "script", "with space.toml"])
        self.assertEqual(self.completed("bmmc", "run", "folder/"), ["folder/inner.toml"])
        self.assertEqual(self.completed("bmmc", "flip", ""), [])
        self.assertEqual(sorted(self.completed("script/bmmc", "install", "")), ["folder", "script"])
        self.assertEqual(self.completed("bmmc", "run", "gray.toml", ""), [])

    def test_a_kind_has_a_text_and_a_batch_has_several_after_its_seed(self) -> None:
        texts = ["folder", "gray.toml", "script", "with space.toml"]
        self.assertEqual(sorted(self.completed("bmmc", "kind", "")), texts)
        self.assertEqual(self.completed("bmmc", "kind", "gray.toml", ""), [])
        for word in ("batch", "batch-run"):
            self.assertEqual(self.completed("bmmc", word, ""), [])
            self.assertEqual(sorted(self.completed("bmmc", word, "7", "")), texts)
            self.assertEqual(sorted(self.completed("bmmc", word, "7", "gray.toml", "")), texts)

    def test_a_mirror_has_a_side_and_then_the_words_of_a_command(self) -> None:
        self.assertEqual(self.completed("bmmc", "mirror", ""), ["left", "right"])
        self.assertEqual(self.completed("bmmc", "mirror", "left", ""), WORDS)
        self.assertEqual(sorted(self.completed("bmmc", "mirror", "right", "run", "")), ["folder", "gray.toml", "script", "with space.toml"])
        self.assertEqual(self.completed("bmmc", "mirror", "right", "flip", ""), [])


def script():
    """The script `./bmmc` as a module, and whether what it would install is built from these sources."""
    loader = importlib.machinery.SourceFileLoader("bmmc_script", str(TOP / "bmmc"))
    module = importlib.util.module_from_spec(importlib.util.spec_from_loader("bmmc_script", loader))
    loader.exec_module(module)
    try:
        return module, module.is_built(module.sources())
    except OSError:
        return module, False


class Install(unittest.TestCase):
    def setUp(self) -> None:
        module, built = script()
        if not built:
            self.skipTest("the program is not built from these sources: `./bmmc plan examples/gray.toml` builds it")
        self.program = Path(module.PROGRAM)
        made = tempfile.TemporaryDirectory(prefix="bmmc-test-")
        self.addCleanup(made.cleanup)
        self.prefix = Path(made.name) / "prefix"

    def call(self, *words: str) -> subprocess.CompletedProcess:
        return subprocess.run([str(TOP / "bmmc"), *words], capture_output=True, text=True)

    def files(self) -> list[str]:
        """All files below the prefix."""
        return sorted(str(path.relative_to(self.prefix)) for path in self.prefix.rglob("*") if path.is_file())

    def test_an_install_works_by_itself_and_goes_without_a_trace(self) -> None:
        other = self.prefix / "share" / "man" / "man1" / "other.1"
        other.parent.mkdir(parents=True)
        other.touch()
        for _ in range(2):
            self.assertEqual(self.call("install", str(self.prefix)).returncode, 0)
        examples = [f"share/doc/bmmc/examples/{name}" for name in os.listdir(TOP / "examples")]
        wanted = ["bin/bmmc", "share/bash-completion/completions/bmmc", "share/man/man1/bmmc.1", "share/man/man1/other.1", *examples]
        self.assertEqual(self.files(), sorted(wanted))
        plan = [self.prefix / "bin" / "bmmc", "plan", self.prefix / "share/doc/bmmc/examples/bit-reversal.toml"]
        ended = subprocess.run(plan, cwd=self.prefix, capture_output=True, text=True)
        self.assertEqual((ended.returncode, ended.stderr), (0, "bmmc: done\n"))
        self.assertIn("passes 2\nmoves 16\nbound 24\n", ended.stdout)
        self.assertEqual(self.call("uninstall", str(self.prefix)).returncode, 0)
        self.assertEqual(self.files(), ["share/man/man1/other.1"])
        self.assertFalse((self.prefix / "share" / "doc" / "bmmc").exists())

    def test_wrong_words_and_folders_are_told(self) -> None:
        self.assertEqual(self.call("install").returncode, 2)
        self.assertIn("give one folder", self.call("uninstall", "a", "b").stderr)
        self.prefix.touch()
        ended = self.call("install", str(self.prefix))
        self.assertEqual(ended.returncode, 1)
        self.assertIn("Not a directory", ended.stderr)


class Gate(unittest.TestCase):
    def run_check(self, gate: int, clients: int, memory: int) -> subprocess.CompletedProcess:
        """Runs a copy of `./check` with a gate and with tests that end so."""
        with tempfile.TemporaryDirectory(prefix="bmmc-test-") as name:
            folder = Path(name)
            shutil.copy(TOP / "check", folder / "check")
            for path, text in (
                ("bin/rt", f"echo at work; echo '9 passed, {gate} failed'; exit {gate}"),
                ("bmmc", 'echo "$@" >>noted'),
                ("clients/python/check", f'echo "program ${{BMMC##*/crates/}}"; echo "7 passed, {clients} failed"; exit {clients}'),
                ("clients/memory/check", f'echo "memory ${{BMMC##*/crates/}}"; echo "5 passed, {memory} failed"; exit {memory}'),
            ):
                (folder / path).parent.mkdir(parents=True, exist_ok=True)
                (folder / path).write_text(f"#!/bin/sh\n{text}\n", encoding="utf-8")
                (folder / path).chmod(0o755)
            environment = {**os.environ, "PATH": f"{folder / 'bin'}:{os.environ['PATH']}"}
            return subprocess.run(["./check"], cwd=folder, env=environment, capture_output=True, text=True)

    def test_it_runs_all_and_ends_with_the_gates_last_line(self) -> None:
        ended = self.run_check(0, 0, 0)
        self.assertEqual(ended.returncode, 0)
        gate = ["at work", "9 passed, 0 failed"]
        clients = ["program bmmc/out/bmmc", "7 passed, 0 failed", "memory bmmc/out/bmmc", "5 passed, 0 failed"]
        self.assertEqual(ended.stdout.splitlines(), gate + clients + gate[-1:])

    def test_it_ends_with_the_first_that_fails(self) -> None:
        ended = self.run_check(3, 0, 0)
        self.assertEqual((ended.returncode, ended.stdout.splitlines()), (3, ["at work", "9 passed, 3 failed"]))
        ended = self.run_check(0, 4, 0)
        self.assertEqual((ended.returncode, ended.stdout.splitlines()[-1]), (4, "7 passed, 4 failed"))
        ended = self.run_check(0, 0, 2)
        self.assertEqual((ended.returncode, ended.stdout.splitlines()[-1]), (2, "5 passed, 2 failed"))
