"""The chain's arithmetic, beside a port of it that was written apart, and by hand."""
import random
import unittest

import chain_miner
import support  # noqa: F401  (it finds the scripts' modules)

from chain_rule import amounts_of, finding_of, nearest, normalised, score_of
from snapshots import Nominator, Snapshot
from weights import Entry

NAMES = [bytes([i]) * 32 for i in range(1, 4)]


class Arithmetic(unittest.TestCase):
    def test_to_the_nearest(self):
        # 10 * 32768 / 65535 is 5.00008, 3 * 32767 / 65535 is 1.49998, 3 * 32768 / 65535 is 1.50002
        self.assertEqual([nearest(10, 32768), nearest(3, 32767), nearest(3, 32768), nearest(1 << 64, 65535)], [5, 1, 2, 1 << 64])

    def test_normalised_as_published(self):
        # the cases of the tests of sp_arithmetic, where the sum is to be 40
        for amounts, due in (([8, 9, 7, 10], [10, 10, 10, 10]), ([7, 7, 7, 7], [10, 10, 10, 10]), ([7, 7, 7, 10], [11, 11, 8, 10]),
                             ([7, 8, 7, 10], [11, 8, 11, 10]), ([7, 7, 8, 10], [11, 11, 8, 10]), ([8, 11, 9, 10], [10, 11, 9, 10]),
                             ([10, 7, 10, 10], [10, 10, 10, 10]), ([12, 11, 13, 10], [10, 10, 10, 10]), ([13, 13, 13, 13], [10, 10, 10, 10]),
                             ([13, 13, 13, 10], [12, 9, 9, 10]), ([13, 12, 13, 10], [9, 12, 9, 10]), ([13, 13, 12, 10], [9, 9, 12, 10])):
            self.assertEqual(normalised(amounts, 40), due)
        for amounts, total, due in (([], 0, []), ([5], 9, [9]), ([0, 0, 0], 2, [1, 1, 0]), ([3, 3], 4, [2, 2])):
            self.assertEqual(normalised(amounts, total), due)

    def test_normalised_as_the_port_does(self):
        draws = random.Random(4)
        for _ in range(4000):
            amounts = [draws.randrange(draws.choice([3, 20, 10 ** 12])) for _ in range(draws.randint(1, 24))]
            total = max(0, sum(amounts) + draws.choice([draws.randint(-12, 12), draws.randint(-10 ** 6, 10 ** 6)]))
            self.assertEqual(normalised(amounts, total), chain_miner.normalize(amounts, total), (amounts, total))

    def test_a_share_of_nothing_is_passed_over(self):
        self.assertEqual(amounts_of(Entry(0, ((0, 0), (1, 32768)), 2), 10), [(1, 5), (2, 5)])

    def test_a_score(self):
        self.assertEqual(score_of([3, 4]), (3, 7, 25))
        self.assertEqual(score_of([]), (0, 0, 0))
        self.assertEqual(score_of([1 << 64, 1 << 64])[2], (1 << 128) - 1)


class Findings(unittest.TestCase):
    def setUp(self):
        self.snapshot = Snapshot([Nominator(b'\x11' * 32, 60, NAMES[:2]), Nominator(b'\x12' * 32, 0, NAMES[2:])], NAMES, [2])

    def test_a_voter_without_a_stake_elects_and_gives_nothing(self):
        entries = [Entry(0, (), 0), Entry(1, (), 2)]
        finding = finding_of(self.snapshot, 2, entries, (0, 60, 3600))
        self.assertEqual((finding.wrong, finding.members, finding.score), ([], [0, 2], (0, 60, 3600)))
        self.assertEqual(finding.edges, [(0, 0, 60), (1, 2, 0)])

    def test_many_wrong_entries_are_counted(self):
        finding = finding_of(self.snapshot, 1, [Entry(0, (), 2)] * 9, None)
        self.assertEqual(finding.wrong, ['voter 0 backs target 2, which it does not nominate'] * 3 + ['and 6 more of its entries are wrong'])


if __name__ == '__main__':
    unittest.main()
