"""Tests of the module pasis: python3 tests.py PASIS_H, with the module in PYTHONPATH. What it repeats of the header is held against the header."""
import re
import sys
import unittest
from pathlib import Path

import pasis

HEADER = Path(sys.argv.pop()).read_text()
PLAN = pasis.Plan(N=5, t=1, b=1, Q=3, m=2, F=4)
BLOCK = b"12345678"


def books(plan=PLAN):
    """Fresh books with room for three records."""
    made = [bytearray(plan.book_size(3)) for _ in range(plan.N)]
    for node, book in enumerate(made):
        pasis.fresh_book(plan, node, book)
    return made


def drive(session, books, hear):
    """Asks all nodes in turn until the operation ends."""
    desk = bytearray(PLAN.desk_size)
    for node in list(range(PLAN.N)) * (PLAN.W + 1):
        try:
            ending = hear(session, pasis.node(PLAN, pasis.owed(PLAN, session, node, desk), books[node]), desk)
        except (pasis.RefusedHeard, pasis.RefusedHash, pasis.RefusedHeld):  # the last two come of a damaged book
            continue
        if ending:
            return ending
    raise AssertionError("no end")


def save(books, ask, block=BLOCK):
    return drive(pasis.open_write(PLAN, ask), books, lambda session, reply, desk: pasis.write_reply(PLAN, session, reply, desk, block))


def read(books, ask):
    return drive(pasis.open_read(PLAN, ask), books, lambda session, reply, desk: pasis.read_reply(PLAN, session, reply, desk))


class Header(unittest.TestCase):
    def test_every_call_of_the_header_is_made(self):
        source = Path(pasis.__file__).read_text()
        declared = re.findall(r"^(?:uint32_t|size_t) (pasis_[a-z_]+)\(", HEADER, re.M)
        self.assertGreaterEqual(len(declared), 13)
        self.assertEqual([call for call in declared if call not in source], [])

    def test_numbers_and_sizes_are_the_headers(self):
        for name, value in re.findall(r"^#define PASIS_([A-Z_]+) (\d+)", HEADER, re.M):
            self.assertEqual(getattr(pasis, name), int(value), name)
        for name, value in re.findall(r"PASIS_(REPAIRABLE|NON_REPAIR|CRASH|BYZANTINE) = (\d)", HEADER):
            self.assertEqual(getattr(pasis, name), int(value), name)
        self.assertEqual(pasis.interface(), pasis.INTERFACE)
        self.assertEqual(pasis.sizes(), (pasis.PLAN_SIZE, pasis.SESSION_SIZE, pasis.ENDING_SIZE))

    def test_answers_have_the_headers_numbers_and_words(self):
        numbers = dict(re.findall(r"PASIS_([A-Z_]+) = (\d+),? *(?:/\*.*)?$", HEADER, re.M))
        words = dict(re.findall(r"case PASIS_([A-Z_]+):\s+return \"(.*?)\";", HEADER))
        refusals = {name for name in numbers if name.startswith("REFUSED_")}
        self.assertEqual(len(refusals), len(pasis.REFUSALS))
        for name, said in words.items():
            number = int(numbers[name])
            self.assertEqual(pasis.words(number), said)
            if name in refusals:
                self.assertEqual(pasis.REFUSALS[number].__name__, name.title().replace("_", ""))
            elif number:
                self.assertEqual(getattr(pasis, name), number)
        self.assertEqual(pasis.words(99), "not an answer of this interface")


class Calls(unittest.TestCase):
    def test_a_block_comes_back_also_from_damaged_books(self):
        all_books = books()
        self.assertEqual(read(all_books, 1).answer, pasis.NEVER_WRITTEN)
        saved = save(all_books, 100)
        all_books[1][-1 - PLAN.record_size * 2] ^= 1  # the last byte of the one record
        opened = read(all_books, 200)
        self.assertEqual((opened.answer, opened.item, opened.timestamp), (pasis.DONE, BLOCK, saved.timestamp))
        self.assertEqual((saved.time, saved.item, opened.rounds), (1, None, 1))

    def test_refusals_are_exceptions_and_leave_all_as_it_was(self):
        book = books()[0]
        before = bytes(book)
        with self.assertRaises(pasis.RefusedFrame) as caught:
            pasis.node(PLAN, b"", book)
        self.assertIn("refusal 4: frame length", str(caught.exception))
        with self.assertRaises(pasis.RefusedPlan):
            pasis.open_read(PLAN._replace(Q=1), 0)
        with self.assertRaises(pasis.RefusedLength):
            pasis.fresh_book(PLAN, 0, bytearray(10))
        with self.assertRaises(pasis.RefusedAsk):
            pasis.open_write(PLAN, 2**64 - 1)
        with self.assertRaises(pasis.RefusedWish):
            pasis.smallest_plan(pasis.REPAIRABLE, 9, 9, 9)
        self.assertEqual(bytes(book), before)

    def test_a_full_book_refuses_and_one_lent_longer_does_not(self):
        all_books = books()
        for ask in (100, 200, 300):
            save(all_books, ask)
        with self.assertRaises(pasis.RefusedRoom):
            save(all_books, 400)
        for book in all_books:
            book += bytes(PLAN.record_size)
        self.assertEqual(save(all_books, 500).time, 4)

    def test_a_run_is_the_single_calls_one_after_another(self):
        one, other = books()[0], books()[0]
        session, desk = pasis.open_write(PLAN, 7), bytearray(PLAN.desk_size)
        ask = pasis.owed(PLAN, session, 0, desk)
        wrong = ask[:6] + b"\x01" + ask[7:]
        ran = pasis.run(PLAN, ask + wrong + ask + ask[:9], one)
        self.assertEqual([ran.outcomes[0], ran.outcomes[2]], [pasis.node(PLAN, ask, other)] * 2)
        self.assertIsInstance(ran.outcomes[1], pasis.RefusedFrame)
        self.assertEqual((len(ran.outcomes), ran.place, one), (3, 3 * len(ask), other))
        self.assertEqual(pasis.run(PLAN, b"", one), pasis.Ran([], 0))

    def test_numbers_that_do_not_fit_and_bytes_that_cannot_be_written(self):
        for wrong in (-1, 2**64):
            with self.assertRaises(ValueError):
                pasis.open_read(PLAN, wrong)
        with self.assertRaises(ValueError):
            PLAN._replace(F=65536).bytes()
        with self.assertRaises(TypeError):
            pasis.fresh_book(PLAN, 0, bytes(100))
        both = bytearray(pasis.SESSION_SIZE)
        with self.assertRaises(ValueError):
            pasis.read_reply(PLAN, both, b"", both)


if __name__ == "__main__":
    unittest.main()
