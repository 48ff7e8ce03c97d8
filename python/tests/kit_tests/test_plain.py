"""Tables and paragraphs on a machine without numpy: the same bytes as with it, and one line where a picture needs it."""

import os
import random
import shutil
import subprocess
import sys
import unittest

import numpy as np

from hinge import plain
from kit import MIXED, TOP, folder, history_of, mixed, run

START = TOP / "python" / "hinge" / "__main__.py"


def without_numpy(*words: object) -> subprocess.CompletedProcess[str]:
    """A command of the kit by a Python that looks at no other package."""
    return subprocess.run([sys.executable, "-S", START, *map(str, words)], capture_output=True, text=True, cwd=folder())


def with_broken_numpy(line: str, *words: object) -> subprocess.CompletedProcess[str]:
    """A command of the kit by a Python whose numpy is this line."""
    (folder() / "broken" / "numpy").mkdir(parents=True, exist_ok=True)
    (folder() / "broken" / "numpy" / "__init__.py").write_text(line)
    names = {**os.environ, "PYTHONPATH": str(folder() / "broken"), "PYTHONDONTWRITEBYTECODE": "1"}
    return subprocess.run([sys.executable, START, *map(str, words)], capture_output=True, text=True, cwd=folder(), env=names)


class WithoutNumpy(unittest.TestCase):
    def same(self, *words: object) -> str:
        one, other = run(*map(str, words)), without_numpy(*words)
        self.assertEqual((one.returncode, one.stdout, one.stderr), (other.returncode, other.stdout, other.stderr), words)
        self.assertEqual(one.returncode, 0, one.stderr)
        return one.stdout

    def test_tables_and_paragraphs(self) -> None:
        config, packets, report = mixed("dsl")
        for words in ((), ("--csv",), ("--json", "-"), ("--by", "flow", "--top", 3)):
            self.same("look", packets, report, "--config", config, *words)
        self.assertIn("waiting + ", self.same("why", 5000, config, packets, report))

    def test_a_history(self) -> None:
        """Of a link that loses, whose queue gets full, and that is shared."""
        path = history_of("shared")
        self.assertIn("all", self.same("look", path))
        self.same("why", 1, 400, 5000, path)
        self.same("look", path, "--by", "target", "--csv")

    def test_one_that_cannot_be_loaded_is_as_none_and_is_told(self) -> None:
        path = history_of("shared")
        for line, why in (
            ("raise ImportError('no libblas\\nread on')", "no libblas read on"),
            ("import none", "No module named 'none'"),
        ):
            self.assertEqual(with_broken_numpy(line, "look", path).stdout, run("look", path).stdout)
            done = with_broken_numpy(line, "look", path, "-o", "broken.png")
            told = "hinge look: needs Python's numpy: pip install numpy, or apt-get install python3-numpy; this one fails: "
            self.assertEqual((done.returncode, done.stdout, done.stderr), (7, "", f"{told}{why}\n"))
            self.assertIn("no   pages (.html): Python lacks numpy\n", with_broken_numpy(line, "doctor").stdout)

    def test_a_net_has_its_ways_alone(self) -> None:
        place = folder() / "plain.session"
        place.mkdir()
        shutil.copy(history_of("shared"), place / "net.history")
        done = without_numpy("look", place)
        ways = run("look", place / "net.history", "--by", "target")
        self.assertEqual((done.returncode, done.stdout), (7, ways.stdout))
        self.assertRegex(done.stderr, r"hinge look: the hosts, the paths .*: needs Python's numpy: .*numpy\n\Z")

    def test_a_capture(self) -> None:
        self.same("packets", MIXED, "--from", "10.9.0.1")

    def test_faults_are_the_same(self) -> None:
        _, packets, report = mixed("dsl")
        lines, path = packets.read_text().splitlines()[:40], folder() / "bad.csv"
        words = ("pipes", "", "1.2.3", "256.1.1.1", "1.1.1.1.1", "-1", "9" * 19, "½", "1" * 20)
        for place, word in enumerate(words, 1):
            fields = lines[20].split(",")
            fields[place] = word
            path.write_text("\n".join([*lines[:20], ",".join(fields), *lines[21:]]) + "\n")
            one = run("look", path, report)
            other = without_numpy("look", path, report)
            self.assertEqual((4, one.stdout, one.stderr), (other.returncode, other.stdout, other.stderr), word)

    def test_a_picture_needs_it(self) -> None:
        _, packets, report = mixed("dsl")
        done = without_numpy("look", packets, report, "-o", "plain.png")
        self.assertEqual(done.returncode, 7)
        self.assertRegex(
            done.stderr, r"\Ahinge look: needs Python's numpy: pip install numpy, or apt-get install python3-numpy\n\Z"
        )


class Functions(unittest.TestCase):
    def test_each_is_that_of_numpy(self) -> None:
        draw = random.Random(1)
        for size in (0, 1, 2, 40):
            numbers, others = ([draw.randrange(9) for _ in range(size)] for _ in range(2))
            for name, words in {
                "append": (numbers, others),
                "bincount": (numbers, others, 12),
                "cumsum": (numbers,),
                "flatnonzero": (numbers,),
                "count_nonzero": (numbers,),
                "lexsort": ((numbers, others),),
                "maximum": (numbers, 4),
                "partition": (numbers, list(range(size))),
                "unique": (numbers, True),
            }.items():
                with self.subTest(name, size=size):
                    own, theirs = (self.called(module, name, words) for module in (plain, np))
                    self.assertEqual(own, theirs)

    def called(self, module: object, name: str, words: tuple[object, ...]) -> object:
        made = [self.made(module, word) for word in words]
        more = {"return_inverse": made.pop()} if name == "unique" else {}
        return self.told(getattr(module, name)(*made, **more))

    def made(self, module: object, word: object) -> object:
        if isinstance(word, tuple):
            return tuple(self.made(module, one) for one in word)
        return getattr(module, "array")(word, int) if isinstance(word, list) else word

    def told(self, answer: object) -> object:
        if isinstance(answer, tuple):
            return [self.told(one) for one in answer]
        return list(map(int, answer)) if hasattr(answer, "__len__") else int(str(answer))

    def test_masks_places_and_slices(self) -> None:
        for module in (plain, np):
            row = module.array([5, 1, 4, 1, 3], int)
            row[row == 1] = 7
            row[module.array([0, 2], int)] = module.array([8, 9], int)
            row[1:] |= module.array([0, 0, 0, 16], int)
            self.assertEqual(row.tolist(), [8, 7, 9, 7, 19])
            self.assertEqual((-1 - row[row > 8][::-1]).tolist(), [-20, -10])
            self.assertEqual(module.where(~(row > 8) & (row != 8), 0, -(-row // 2)).tolist(), [4, 0, 5, 0, 10])
            ordered = module.array(sorted(row.tolist()), int)
            self.assertEqual(int(module.searchsorted(ordered, 7, side="right")), 2)
            self.assertEqual(module.searchsorted(ordered, module.array([7, 20], int)).tolist(), [0, 5])
            self.assertEqual((int(module.argmax(row)), int(row.min()), int(row[:0].max(initial=3))), (4, 7, 3))
