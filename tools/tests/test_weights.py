"""Supports, verdicts and the fill, on an election that is small enough to be reckoned by hand."""
import unittest

from support import HAS_PROGRAM, NO_PROGRAM

import program
from bundle import Bundle, Packed, Plain, Voter
from weights import Entry, Weights, expand, fill, judge, prescores_of, score_of, slack_of, solution_bytes

TARGETS = [number.to_bytes(32, 'big') for number in range(1, 5)]


def voter(number: int, stake: int, *votes: int) -> Voter:
    """A voter whose account is a number."""
    return Voter(number.to_bytes(32, 'big'), stake, votes)


def election() -> Bundle:
    """Two seats, four targets, 60 + 40 + 20 of stake: a seat costs 60."""
    return Bundle(2, TARGETS, [voter(11, 60, 0, 1), voter(12, 40, 1, 2), voter(13, 20, 3)])


GOOD = [Entry(0, (), 0), Entry(1, (), 1)]

# entries, the claimed score, and the verdict
PACKED = [
    (GOOD, (40, 100, 60 * 60 + 40 * 40), (0,)),
    (GOOD, (40, 100, 5201), (9, 40, 100, 5200)),
    (GOOD + [Entry(3, (), 0)], (0, 0, 0), (2, 3)),
    (GOOD + [Entry(2, (), 4)], (0, 0, 0), (3, 4)),
    (GOOD + [Entry(1, (), 2)], (0, 0, 0), (4, 1)),
    ([Entry(0, ((0, 9),), 0)], (0, 0, 0), (5, 0)),
    ([Entry(0, ((1, 9),), 2)], (0, 0, 0), (6, 0, 2)),
    ([Entry(0, ((1, 0),), 0)], (0, 0, 0), (7, 0)),
    ([Entry(0, ((1, 65535),), 0)], (0, 0, 0), (7, 0)),
    ([Entry(0, (), 0)], (0, 0, 0), (8, 1)),
    # voters 1 and 2 give 40 and 20 in vain for their targets: target 1 has voter 0's 60 left
    ([Entry(1, (), 2), Entry(2, (), 3)], (20, 60, 2000), (10, 0, 60)),
]
PLAIN = [
    ([0, 1], [(0, 0, 60), (1, 1, 40)], (0,)),
    ([0, 4], [], (3, 4)),
    ([0, 0], [], (5, 0)),
    ([0, 1], [(3, 0, 1)], (2, 3)),
    ([0, 1], [(0, 2, 1)], (3, 2)),
    ([0, 1], [(1, 0, 1)], (6, 1, 0)),
    ([0, 1], [(0, 0, 1), (0, 0, 1)], (5, 0)),
    ([0, 1], [(0, 0, 60), (0, 1, 1)], (11, 0)),
    ([0], [], (8, 1)),
    ([3, 2], [(2, 3, 20), (1, 2, 40)], (10, 0, 60)),
]


class Verdicts(unittest.TestCase):
    def bundles(self):
        """All bundles of the tables with their verdicts."""
        for entries, claim, verdict in PACKED:
            yield Bundle(**{**vars(election()), 'work': Packed(claim, solution_bytes(entries))}), verdict
        for committee, edges, verdict in PLAIN:
            yield Bundle(**{**vars(election()), 'work': Plain(committee, edges)}), verdict
        yield Bundle(**{**vars(election()), 'work': Packed((0, 0, 0), bytes.fromhex('0400'))}), (1, 2, 1)

    def test_each_verdict(self):
        for one, verdict in self.bundles():
            with self.subTest(one.work):
                self.assertEqual(judge(one)[1], verdict)

    @unittest.skipUnless(HAS_PROGRAM, NO_PROGRAM)
    def test_the_program_says_the_same(self):
        for one, verdict in self.bundles():
            with self.subTest(one.work):
                self.assertEqual(program.report_of(program.ask(['check'], one).text.encode()).verdict, verdict)


class Amounts(unittest.TestCase):
    def test_shares_are_rounded_down_and_the_last_gets_the_rest(self):
        # 60 * 16384 / 65535 is 15.0002, and 60 - 15 is 45
        weights, verdict = expand(election(), solution_bytes([Entry(0, ((0, 16384),), 1)]))
        self.assertEqual((weights, verdict), (Weights([0, 1], [(0, 0, 15), (0, 1, 45)]), (0,)))

    def test_what_is_left(self):
        one = election()
        one.voters[1] = voter(12, 80, 1, 2)  # a total of 160, and a price of 80
        weights = Weights([0, 1], [(0, 1, 60), (1, 1, 80)])
        # target 1 has 140 and costs 80: 60 * 80 / 140 is 34, and 80 * 80 / 140 is 45
        self.assertEqual(slack_of(one, weights), [26, 35, 20])
        self.assertEqual(prescores_of(one, [26, 35, 20]), [26, 61, 35, 20])
        self.assertEqual(score_of(weights), (0, 140, 19600))

    def test_the_fill(self):
        # target 1 has 100 behind it and draws 60 of voter 0; then target 2, with voter 1's 40, is ahead of target 3
        self.assertEqual(fill(election()), Weights([1, 2], [(0, 1, 60), (1, 2, 40)]))


if __name__ == '__main__':
    unittest.main()
