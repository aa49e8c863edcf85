#!/usr/bin/env python3
"""The tool gust: each command's lines, JSON, status and files; bad input of every kind is a sentence and status 1, and leaves files as they were.

    PYTHONPATH=python python3 tests/tool_checks.py
"""
import json
import os
import pathlib
import random
import subprocess
import sys
import tempfile
import unittest

from gustparsley import Mesh, Sheet


def gust(*words, folder):
    """Status, standard output and standard error of a command."""
    done = subprocess.run([sys.executable, "-m", "gustparsley", *map(str, words)], cwd=folder, capture_output=True, text=True, timeout=60, env={**os.environ, "PYTHONPATH": str(pathlib.Path("python").resolve())})
    return done.returncode, done.stdout, done.stderr


class Tool(unittest.TestCase):
    def setUp(self):
        held = tempfile.TemporaryDirectory()
        self.addCleanup(held.cleanup)
        self.folder = pathlib.Path(held.name)

    def well(self, *words):
        status, out, err = gust(*words, folder=self.folder)
        self.assertEqual((status, err), (0, ""), words)
        told = json.loads(gust(*words, "--json", folder=self.folder)[1]) if words[0] not in ("move", "book") else None
        return out.splitlines(), told

    def bad(self, status, *words, says=""):
        before = self.files()
        told, out, err = gust(*words, folder=self.folder)
        self.assertEqual((told, out), (status, ""), (words, out, err))
        self.assertNotIn("Traceback", err)
        self.assertIn(says, err)
        self.assertEqual(self.files(), before, words)
        if status == 1:
            told, out, err = gust(*words, "--json", folder=self.folder)
            self.assertEqual((told, set(json.loads(out))), (1, {"refused"}))
        return err

    def files(self):
        return {file.name: file.read_bytes() for file in self.folder.iterdir()}

    def test_plan_show_check_stop(self):
        lines, told = self.well("plan", "two", 3, 0, 5, 9, 17, 40, "-o", "fan.sheet")
        mesh = Mesh.two(3)
        self.assertEqual(told["paths"], mesh.plan(0, [5, 9, 17, 40]))
        self.assertEqual(Sheet.read((self.folder / "fan.sheet").read_bytes()), Sheet.of(mesh, 0, [5, 9, 17, 40]))
        self.assertEqual(len(lines), 4)
        shown, told = self.well("show", "fan.sheet")
        self.assertEqual(shown[1:], lines)
        self.assertEqual((told["version"], told["source"], told["targets"]), (1, 0, [5, 9, 17, 40]))
        self.assertEqual(self.well("check", "fan.sheet")[1]["fine"], True)
        stopped, cut = told["paths"][1][1], told["paths"][2][:2]
        lines, told = self.well("stop", "fan.sheet", "--relays", stopped, "--cuts", f"{cut[1]}-{cut[0]}")
        self.assertEqual((lines[0], told["whole"]), ("2 of 4 paths are whole", 2))
        self.assertEqual([line.endswith("whole") for line in lines[1:]], [True, False, False, True])

    def test_bundle_and_facts(self):
        self.assertEqual(self.well("bundle", "cube", 3, 0, 7)[1]["paths"], Mesh.cube(3).bundle(0, 7))
        self.assertEqual(self.well("facts", "meta", 2, 3)[1]["relays"], Mesh.meta(2, 3).relays)

    def test_a_sheet_that_is_damaged(self):
        data = bytearray(Sheet.of(Mesh.cube(2), 0, [3, 1]).write())
        for at, value, says in ((25, 3, "22: bad.sheet: path 0, place 1: relay 3 is not linked to relay 0"), (43, 2, "24: bad.sheet: path 1, place 1: relay 2 stands on an earlier path"), (4, 9, "31: "), (3, 0, "30: ")):
            damaged = bytearray(data)
            damaged[at] = value
            (self.folder / "bad.sheet").write_bytes(damaged)
            err = self.bad(1, "check", "bad.sheet", says=says)
            self.assertIn("To mend: ", err)
            for command in (("show", "bad.sheet"), ("stop", "bad.sheet"), ("move", "bad.sheet", "--to", 2), ("draw", "bad.sheet", "-o", "bad.svg")):
                self.bad(1, *command, says="bad.sheet")

    def test_moves(self):
        self.well("plan", "cube", 2, 0, 3, 1, "--zones", "5,0", "-o", "zoned.sheet")
        self.bad(1, "move", "zoned.sheet", "--to", 1, says="38: zoned.sheet: path 0 has a zone that is not 0")
        self.bad(1, "move", "zoned.sheet", "--to", 2, says="31: ")
        self.well("plan", "cube", 2, 0, 3, 1, "-o", "plain.sheet")
        was = (self.folder / "plain.sheet").read_bytes()
        self.well("move", "plain.sheet", "--to", 2)
        self.assertEqual((self.folder / "plain.sheet").read_bytes()[4], 2)
        self.well("move", "plain.sheet", "--to", 1, "-o", "back.sheet")
        self.assertEqual((self.folder / "back.sheet").read_bytes(), was)

    def test_a_book(self):
        for source in (0, 1):
            self.well("plan", "cube", 2, source, source ^ 3, source ^ 1, "-o", f"{source}.sheet")
        self.well("book", "new", "hosts.book")
        self.bad(1, "book", "new", "hosts.book", says="already")
        for source in (0, 1):
            self.well("book", "add", "hosts.book", f"{source}.sheet")
        self.bad(1, "book", "add", "hosts.book", "0.sheet", says="39: ")
        self.assertTrue(self.well("book", "list", "hosts.book")[0][0].startswith("hosts.book: 2 sheets"))
        self.well("book", "find", "hosts.book", "cube", 2, 1, "-o", "found.sheet")
        self.assertEqual((self.folder / "found.sheet").read_bytes(), (self.folder / "1.sheet").read_bytes())
        self.well("book", "remove", "hosts.book", "cube", 2, 1)
        self.bad(1, "book", "find", "hosts.book", "cube", 2, 1, says="51: ")
        self.bad(1, "book", "remove", "hosts.book", "cube", 2, 1, says="51: ")
        self.well("book", "close", "hosts.book")
        self.assertEqual((self.folder / "hosts.book").read_bytes(), (self.folder / "0.sheet").read_bytes())
        (self.folder / "torn.book").write_bytes((self.folder / "hosts.book").read_bytes()[:-1])
        self.bad(1, "book", "list", "torn.book", says="53: ")

    def test_pictures(self):
        self.well("plan", "two", 2, 27, 60, 6, 33, "-o", "fan.sheet", "--draw", "fan.svg")
        self.well("draw", "fan.sheet", "-o", "fan.html", "--relays", 25, "--cuts", "27-59")
        self.well("bundle", "two", 1, 0, 6, "--draw", "bundle.html")
        self.assertTrue((self.folder / "fan.svg").read_text().startswith("<svg"))
        for name in ("fan.html", "bundle.html"):
            self.assertIn("</html>", (self.folder / name).read_text())
        self.bad(1, "draw", "fan.sheet", "-o", "no/such/folder/fan.svg", says="No such file")

    def test_bad_words(self):
        (self.folder / "a.sheet").write_bytes(b"no sheet at all")
        for words, says in (
            (("plan", "cube"), "size"), (("plan", "ring", 3, 0, 1), "a mesh is"), (("plan", "two", 3), "source"), (("plan", "two", 3, 0, "x"), "'x' is no number"), (("plan", "two", 9, 0, 1), "1: "),
            (("plan", "two", 3, 0, 2048), "5: "), (("plan", "cube", 3, 0, 2**70), "2^64"), (("plan", "meta", 1, 2, 0, 1), "52: "), (("plan", "two", 3, 0, 5, "-o", "one.sheet"), "37: "),
            (("plan", "cube", 2, 0, 3, 1, "--zones", "1", "-o", "b.sheet"), "8: "), (("bundle", "two", 3, 0), "two relays"), (("show", "none.sheet"), "none.sheet: No such file"), (("show", "a.sheet"), "30: "),
            (("book", "find", "none.book", "cube", 2, 1), "No such file"),
        ):
            self.bad(1, *words, says=says)
        for words in ((), ("plan",), ("dance",), ("move", "a.sheet", "--to", "3"), ("stop", "a.sheet", "--cuts", "3"), ("stop", "a.sheet", "--relays", "x"), ("draw", "a.sheet"), ("book",)):
            self.bad(2, *words, says="usage")

    def test_no_input_is_a_traceback(self):
        rng = random.Random(3)
        words = ["plan", "bundle", "show", "check", "stop", "facts", "cube", "two", "meta", "a.sheet", "-1", "0", "3", "99999999999999999999", "", "--json", "--relays", "--cuts", "1-2", "é", "book", "list"]
        (self.folder / "a.sheet").write_bytes(bytes(rng.randrange(256) for _ in range(40)))
        for _ in range(40):
            status, _, err = gust(*rng.choices(words, k=rng.randrange(1, 7)), folder=self.folder)
            self.assertIn(status, (0, 1, 2))
            self.assertNotIn("Traceback", err)


if __name__ == "__main__":
    unittest.main(verbosity=1)
