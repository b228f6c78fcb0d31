"""Tests of storm.py: its lines are those that are proved in numbers, and those that are kept for the program's tests."""

import re
import subprocess
import unittest

from tested.common import content, loaded, started

# Where some storms' texts are proved, and where the lines of larger ones stand, each behind its words.
PROVED = ("crates", "storm_model", "specs", "Rows.antt")
KEPT = ("tools", "expected", "storm.lines")
LINE = re.compile(r"vb (\d+) high (\d+) docs (\d+) sum (\d+) saved (\d+) read (\d+) (\d+)")


def written(*words: str) -> subprocess.CompletedProcess[bytes]:
    return started("storm.py", *words, stdout=subprocess.PIPE)


def kept() -> dict[tuple[str, ...], str]:
    """The lines that are kept, by the words of their storm."""
    parts = re.split(r"^storm (\d+) (\d+) (\d+)\n", content(*KEPT).decode(), flags=re.MULTILINE)
    return {tuple(parts[at : at + 3]): parts[at + 3] for at in range(1, len(parts), 4)}


class Storms(unittest.TestCase):
    def test_proved(self) -> None:
        rows = re.findall(r'storm_text (\d+) (\d+) (\d+) ≡\s+codes\s+"([^"]*)"', content(*PROVED).decode())
        self.assertGreaterEqual(len(rows), 3)
        for *words, text in rows:
            with self.subTest(words=words):
                self.assertEqual(written(*words).stdout.decode(), text.replace("\\n", "\n"))

    def test_writes(self) -> None:
        rows = re.findall(r"all_writes (\d+) (\d+) (\d+) ≡((?:[^:∷]*∷)+)", content(*PROVED).decode())
        self.assertGreaterEqual(len(rows), 3)
        for *words, puts in rows:
            with self.subTest(words=words):
                told = re.findall(r'put (\d+) \(codes "(\w+)"\) \(codes "(\w+)"\)', puts)
                self.assertEqual(len(told), int(words[2]))
                self.assertEqual(list(loaded("storm.py").writes_of(*map(int, words))), [(int(v), key, value) for v, key, value in told])

    def test_kept(self) -> None:
        self.assertIn(("7", "4", "10000"), kept())
        for words, lines in kept().items():
            with self.subTest(words=words):
                self.assertEqual(written(*words).stdout.decode(), lines)

    def test_kept_lines_add_up(self) -> None:
        for (_, clients, writes), lines in kept().items():
            with self.subTest(lines=lines):
                told = [tuple(map(int, LINE.fullmatch(line).groups())) for line in lines.splitlines()]
                self.assertEqual([line[0] for line in told], [0, 1, 2, 3])
                self.assertEqual(sum(line[1] for line in told), int(clients) * int(writes))
                for _, high, docs, total, saved, first, second in told:
                    self.assertLessEqual(docs, min(high, 100 * int(clients)))
                    self.assertEqual((saved, first, second), (high, total, total))

    def test_refused(self) -> None:
        for words in (
            *("", "7", "7 4", "7 4 100 1", "-1 1 1", "18446744073709551616 1 1", "x 1 1", "07 1 1", "+7 1 1", "7.0 1 1"),
            *("7 0 1", "7 65 1", "7 1 0", "7 1 1000001", "7 64 15626", "7 01 1", "7 1 1e3", "7 \u0661 1"),
        ):
            with self.subTest(words=words):
                ended = written(*words.split())
                self.assertEqual((ended.returncode, ended.stdout), (2, b""))

    def test_limits(self) -> None:
        for words in ("0 1 1", "18446744073709551615 64 1", "7 1 1000000"):
            with self.subTest(words=words):
                self.assertEqual(written(*words.split()).returncode, 0)
