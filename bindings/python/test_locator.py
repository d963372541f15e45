"""Tests of locator.py: python3 -m unittest, in this folder. The lists are those of an independent reading: the
field's product by shifting, and every element tried."""
import doctest
import pathlib
import pickle
import random
import re
import unittest

import locator
from locator import Convention, Outcome, Refused, Table

HEADER = pathlib.Path(__file__).resolve().parent.parent.parent / "include" / "locator.h"
POLYNOMIALS = {4: 0b10011, 8: 0b100011101, 11: 0b100000000101}


def times(m, a, b):
    told = 0
    while b:
        told ^= a if b & 1 else 0
        a, b = a << 1, b >> 1
        if a >> m:
            a ^= POLYNOMIALS[m]
    return told


def value(m, f, x):
    told = 0
    for c in reversed(f):
        told = times(m, told, x) ^ c
    return told


def product_of(m, roots):
    f = [1]
    for r in roots:
        f = [a ^ times(m, b, r) for a, b in zip([0] + f, f + [0])]
    return f


class Same(unittest.TestCase):
    """What stands here and in the header is the same."""

    def setUp(self):
        self.header = HEADER.read_text()

    def defined(self, name):
        return re.search(rf'^#define LOCATOR_{name} "?([^"\n]*)"?$', self.header, re.M).group(1)

    def test_limits(self):
        self.assertEqual(self.defined("VERSION"), locator.VERSION)
        for name in ("SLOTS", "STORED_SLOTS", "ROOTS", "COEFFICIENTS", "ELEMENTS", "WORD", "RECORD"):
            self.assertEqual(int(self.defined(name)), getattr(locator, name), name)

    def test_outcomes(self):
        named = re.findall(r"^    LOCATOR_(?:REFUSED_)?([A-Z_]+) = (\d+),?$", self.header, re.M)
        self.assertEqual({int(number): name for name, number in named}, {int(one): one.name for one in Outcome})
        reasons = dict(re.findall(r'case LOCATOR_(?:REFUSED_)?([A-Z_]+): return "(.*)";', self.header))
        self.assertEqual(reasons, {one.name: one.reason for one in Outcome})

    def test_calls(self):
        declared = set(re.findall(r"^(?:locator_\w+|uint16_t) locator_(\w+)\(", self.header, re.M))
        self.assertEqual(declared, set(locator._CALLS))

    def test_examples(self):
        tried = doctest.testmod(locator)
        self.assertEqual((tried.failed, tried.attempted > 10), (0, True))


class Calls(unittest.TestCase):
    def refused(self, number, call, *words):
        with self.assertRaises(Refused) as told:
            call(*words)
        self.assertEqual(told.exception.number, number)
        self.assertIn(f"({number})", str(told.exception))
        self.assertEqual(pickle.loads(pickle.dumps(told.exception)).number, number)

    def test_elements(self):
        random.seed(1)
        for m in locator.FIELDS:
            for _ in range(200):
                a, b = random.randrange(1 << m), random.randrange(1 << m)
                self.assertEqual(locator.product(m, a, b), times(m, a, b))
                if a:
                    self.assertEqual(times(m, a, locator.inverse(m, a)), 1)
                tried = [x for x in range(1 << m) if times(m, x, x) ^ times(m, a, x) ^ b == 0] if m < 11 else None
                pair = locator.quadratic(m, a, b)
                self.assertEqual(pair.doubled, a == 0)
                if tried is not None:
                    self.assertEqual(pair.roots, tried)
        self.assertEqual(locator.position(4, 2, Convention.GOPPA), 1)
        self.assertEqual(locator.position(4, 2, Convention.RECORDERS), 14)
        self.refused(1, locator.product, 5, 1, 1)
        self.refused(4, locator.product, 4, 16, 1)
        self.refused(13, locator.inverse, 4, 0)
        self.refused(21, locator.position, 4, 1, 2)

    def test_roots(self):
        random.seed(2)
        for m in locator.FIELDS:
            for _ in range(20 if m == 11 else 60):
                f = [random.randrange(1 << m) for _ in range(random.randrange(1, locator.COEFFICIENTS + 1))]
                if not any(f):
                    continue
                found = locator.solve(m, f, random.randrange(4))
                self.assertEqual(found.roots, [x for x in range(1 << m) if value(m, f, x) == 0])
                self.assertEqual(locator.search(m, f)[:2], found[:2])
                self.assertEqual(locator.roots(m, f), found.roots)
        self.assertEqual(locator.solve(4, product_of(4, [3, 3, 3, 9])).multiplicities, [3, 1])
        many = [1] * (locator.COEFFICIENTS + 1)
        wrong = {1: (5, [1]), 2: (4, []), 3: (4, many), 4: (4, [16]), 5: (4, [0]), 6: (4, [1], 4)}
        for number, words in wrong.items():
            self.refused(number, locator.solve, *words)

    def test_numbers_that_do_not_fit_are_not_cut_off(self):
        self.assertRaises(OverflowError, locator.roots, 4, [65536])
        self.assertRaises(OverflowError, locator.product, 65540, 1, 1)
        self.assertRaises(OverflowError, locator.product, 4, -1, 1)

    def test_affine(self):
        random.seed(3)
        for m in locator.FIELDS:
            for _ in range(10):
                c, constant = [random.randrange(1 << m) for _ in range(m)], random.randrange(1 << m)
                space, tried = locator.affine(m, c, constant), []
                for x in range(1 << m):
                    told, y = constant, x
                    for one in c:
                        told, y = told ^ times(m, one, y), times(m, y, y)
                    if told == 0:
                        tried.append(x)
                self.assertEqual(space.roots, tried)
                self.assertEqual(space.dimension, len(tried).bit_length() - 1 if tried else None)
        self.refused(20, locator.affine, 4, [1], 0)

    def test_claims(self):
        random.seed(5)
        for m in locator.FIELDS:
            for n in (1, 2, 3, 8, 33, locator.COEFFICIENTS):
                f = [random.randrange(1 << m) for _ in range(n - 1)] + [1]
                claim, found = locator.prove(m, f), locator.solve(m, f)
                self.assertEqual(claim[:2], found[:2])
                self.assertTrue(locator.check(m, f + [0] * (locator.COEFFICIENTS - n), claim))
                self.assertFalse(locator.check(m, f, claim._replace(h=[*claim.h[:-1], 0])))
                if claim.roots:
                    fewer = claim._replace(roots=claim.roots[1:], multiplicities=claim.multiplicities[1:])
                    self.assertFalse(locator.check(m, f, fewer))
        claim = locator.prove(4, [1, 1])
        self.refused(1, locator.prove, 5, [1])
        self.refused(5, locator.prove, 4, [0])
        self.refused(2, locator.check, 4, [1, 1], claim._replace(u=[]))
        self.refused(4, locator.check, 4, [1, 1], claim._replace(roots=[16]))

    def test_tables(self):
        f = product_of(11, range(5, 69))
        table = Table(11, f, 1)
        self.refused(10, table.finish)
        while table.step():
            pass
        self.assertEqual(table.finish(), list(range(5, 69)))
        self.assertEqual(table.steps, locator.solve(11, f, 1).steps)
        self.assertEqual(Table.of(table.slots).finish(), table.finish())
        self.assertEqual(len(table.slots), locator.SLOTS)
        for slots in (99, 101, 195, 197):
            self.refused(7, Table.of([4] * slots).step)
            self.refused(7, Table.of([4] * slots).finish)

    def test_stored_tables(self):
        for degree, slots in ((32, locator.STORED_SLOTS), (64, locator.SLOTS)):
            self.refused(8, Table.of([9] * slots).step)
            roots = list(range(5, 5 + degree))
            for more in (0, 1):
                f = product_of(11, roots + [900][:more])[:-1]
                table = Table.of(([11, 1, 1, 0, 0, degree + more] + f + [0] * slots)[:slots])
                if more:
                    self.refused(8, table.step)
                    self.refused(8, table.finish)
                else:
                    while table.step():
                        pass
                    self.assertEqual(len(table.slots), slots)
                    self.assertEqual(table.finish(), roots)
                    self.assertEqual(table.steps, locator.solve(11, f + [1], 1).steps)

    def test_blocks(self):
        random.seed(4)
        for strength in range(1, 9):
            payload = random.randbytes((2047 - 11 * strength) // 8)
            word = locator.encode(strength, locator.filled(strength, payload))
            self.assertEqual(locator.correct(strength, word), (word, 0))
            bad = int.from_bytes(word, "little")
            for j in random.sample(range(2047), strength):
                bad ^= 1 << j
            told = locator.correct(strength, bad.to_bytes(256, "little"))
            self.assertEqual(told, (word, strength))
            self.assertEqual(locator.data(strength, told.word), payload)
        far = int.from_bytes(word, "little") ^ (1 << 9) - 1
        self.refused(24, locator.correct, 8, far.to_bytes(256, "little"))
        self.refused(22, locator.correct, 8, b"")
        self.refused(23, locator.correct, 9, bytes(256))
        self.refused(22, locator.encode, 8, b"")
        self.refused(23, locator.encode, 0, bytes(256))
        self.refused(23, locator.filled, 0, b"")
        self.assertRaises(ValueError, locator.filled, 8, bytes(245))

    def test_job_files(self):
        listing = bytes.fromhex("4C520401040600070000000100 4C520501010100 4C520400040100000000000100")
        told = list(locator.read(listing))
        self.assertEqual([one.outcome for one in told], [0, 1, 0])
        self.assertEqual(told[0].solve(), ([1, 2, 3], [1, 1, 1], 4))
        self.refused(1, told[1].solve)
        self.assertEqual(locator.salvage(listing), listing[:13] + listing[20:])
        for end, outcome in ((b"L", 12), (b"xx", 11), (b"LR", 12), (b"LR\x04\x00\x01\x01", 12)):
            self.assertEqual([one.outcome for one in locator.read(listing + end)], [0, 1, 0, outcome])
        self.assertEqual(list(locator.read(b"")), [])
        self.assertEqual(locator.write(4, [1, 2, 3], 1), listing[:13])
        many = range(locator.ROOTS + 1)
        for number, words in ((1, (5, [])), (3, (11, many)), (4, (4, [16])), (25, (4, [2, 2])), (6, (4, [1], 4))):
            self.refused(number, locator.write, *words)


if __name__ == "__main__":
    unittest.main()
