"""The calls through the binding. Run: python3 bindings/python/test_chieftables.py"""

import os
import pickle
import subprocess
import sys
import unittest

sys.path.insert(0, os.path.dirname(os.path.abspath(__file__)))
from chieftables import SENTENCES, Refusal, Table, accept, build, build_packed, check, commutative, measure, read_table, write_table  # noqa: E402

try:
    import numpy
except ImportError:
    numpy = None

S3 = "j i p e1 e2\n1 1 3 0 0\n2 2 2 0 0\n2 1 0 1 0\n"
DATA = os.path.join(os.path.dirname(os.path.abspath(__file__)), "..", "..", "harness", "data")


class Calls(unittest.TestCase):
    def refused(self, number, call, *arguments):
        with self.assertRaises(Refusal) as caught:
            call(*arguments)
        self.assertEqual(caught.exception.number, number)
        self.assertEqual(str(caught.exception), f"{number}: {SENTENCES[number]}")

    def test_s3_is_built_written_read_and_checked(self):
        accept(S3)
        accept(S3.encode())
        self.assertEqual(measure(S3), 144)
        table = build(S3)
        self.assertEqual(len(table.words), 112)
        text = write_table(table.words)
        self.assertEqual(len(text), 258)
        self.assertTrue(text.endswith(b"2 2 2 2 1 0 1 0\n2 2 2 2 2 1 0 0\n"))
        self.assertEqual(read_table(text), table.words)
        check(S3, table.words)
        self.assertEqual(Table.checked(S3, table.words).words, table.words)
        packed = build_packed(S3)
        check(S3, packed)
        self.assertEqual(packed.tolist(), table.words)
        self.assertEqual(write_table(packed), text)

    def test_commutative(self):
        self.assertIs(commutative("j i p e1 e2\n1 1 2 0 0\n2 2 2 1 0\n2 1 0 0 0\n"), True)
        self.assertIs(commutative(S3), False)
        self.refused(15, commutative, S3.replace("0 1 0", "0 2 0"))

    def test_views(self):
        table = build(S3)
        self.assertEqual((table.generators, table.order, len(table.levels)), (2, 6, 2))
        last = table.level(2)[2]
        self.assertEqual([rep.degree for rep in table.level(2)], [1, 1, 2])
        self.assertEqual(last.blocks(), [1, 2])
        self.assertEqual([(c.row, c.exponent) for c in last.matrix(1)], [(0, 2), (1, 4)])
        self.assertEqual([c.row for c in last.matrix(2)], [1, 0])
        self.assertEqual(table.level(1)[1].matrix(2)[0].reference, 2)
        self.assertRaises(IndexError, table.level, 3)
        self.assertRaises(IndexError, last.matrix, 0)

    def test_refusals(self):
        words = build(S3).words

        def changed(line, place, word):
            return words[: 8 * line + place] + [word] + words[8 * line + place + 1 :]

        self.refused(11, accept, "")
        self.refused(12, measure, "j i p e1\n1 1 4 0\n")
        self.refused(13, accept, "j i p e1\n1 1 16411 0\n")
        self.refused(14, build, "j i p e1\n1 1 3 1\n")
        self.refused(15, build, S3.replace("0 1 0", "0 2 0"))
        self.refused(20, read_table, "1 0 1 1 0 0 0 0\n")
        self.refused(21, write_table, [1, 2, 3])
        self.refused(21, check, S3, [])
        self.refused(21, check, S3, [-1] * 8)
        self.refused(22, check, S3, changed(13, 7, 1))
        self.refused(23, check, S3, words[:80] + words[80:87] + [4] + words[88:95] + [2] + words[96:])
        self.refused(24, check, S3, changed(3, 4, 1))
        self.refused(25, check, S3, changed(9, 7, 0))
        self.refused(26, check, S3, words[:80])
        self.assertEqual(pickle.loads(pickle.dumps(Refusal(15))).number, 15)

    def test_every_text_of_the_harness(self):
        for name in sorted(os.listdir(DATA)):
            with open(os.path.join(DATA, name), "rb") as file:
                text = file.read()
            if measure(text) <= 50000:
                table = build(text)
                self.assertEqual(commutative(text), all(rep.degree == 1 for rep in table.levels[-1]))
                self.assertEqual(Table.checked(text, read_table(write_table(table.words))).words, table.words)

    def test_a_missing_library_says_which_command_makes_it(self):
        environment = dict(os.environ, CHIEFTABLES_SO="/nowhere/libchieftables.so", PYTHONPATH=os.path.dirname(os.path.abspath(__file__)))
        code = "import chieftables\ntry:\n    chieftables.accept('')\nexcept chieftables.LibraryMissing as error:\n    print(error)"
        told = subprocess.run([sys.executable, "-c", code], env=environment, capture_output=True, text=True, check=True).stdout
        self.assertIn("scripts/library", told)

    @unittest.skipUnless(numpy, "NumPy is not on the machine")
    def test_numpy(self):
        table = build(S3)
        self.assertEqual(table.array().shape, (14, 8))
        last = table.level(2)[2]
        turn, exchange = last.dense(1), last.dense(2)
        one = numpy.eye(2)
        self.assertTrue(numpy.allclose(numpy.linalg.matrix_power(turn, 3), one))
        self.assertTrue(numpy.allclose(exchange @ exchange, one))
        # g1^-1 g2^-1 g1 g2 = g1
        self.assertTrue(numpy.allclose(turn.conj().T @ exchange.conj().T @ turn @ exchange, turn))


if __name__ == "__main__":
    unittest.main()
