"""From what was mined back to the chain: both widths, whole and by pages, read back by the other scripts."""
import json
import unittest
from pathlib import Path
from unittest import mock

import chain_encoder as chain
import chain_miner
from support import HAS_LIVE, HAS_PROGRAM, NO_LIVE, NO_PROGRAM, Files, inside
from test_audit import HOLDS, PROPORTIONAL

import program
from bundle import bundle_of
from scale import forms

GENERATED = ['--seed', '7', '--voters', '300', '--seats', '8']


@unittest.skipUnless(HAS_PROGRAM, NO_PROGRAM)
class Back(Files):
    def setUp(self) -> None:
        super().setUp()
        self.snapshot = inside('storage-dump', GENERATED).out
        self.election = inside('from-substrate', ['--seats', '8'], self.snapshot).out

    def mined(self, miner: str = 'seq', data: bytes = b'') -> str:
        """The file of what was mined."""
        return self.file(program.ask(['mine', '--miner', miner], bundle_of(data or self.election)).text, 'mined')

    def test_both_widths_and_miners(self):
        for miner in ('seq', 'mms'):
            for groups in ('16', '24'):
                words = ['--seats', '8', '--groups', groups]
                done = inside('to-substrate', [*words, '--round', '5', '--mined', self.mined(miner)], self.snapshot)
                self.assertEqual(done.status, 0, done.err)
                self.assertIn('voters that were left out count again', done.err)
                self.assertIn('no support of a member differs by more than', done.err)
                read = inside('audit-substrate', [*words, '--solution', self.file(done.out)], self.snapshot)
                self.assertEqual((read.status, read.err), (0, ''), read.out.decode())
                for says in (HOLDS, PROPORTIONAL, 'Solution of round 5'):
                    self.assertIn(says, read.out.decode())

    def test_by_pages(self):
        dump = self.file(inside('storage-dump', [*GENERATED, '--pages', '5', '--round', '9']).out, 'dump')
        words = ['--seats', dump, '--voters', dump, '--targets', dump, '--pages', '5']
        self.assertEqual(inside('from-substrate', words).out, self.election)
        done = inside('to-substrate', [*words, '--binary', '--mined', self.mined()])
        self.assertIn('said to be of round 9', done.err)
        self.assertEqual(done.out[:1], chain.compact(5))
        read = inside('audit-substrate', [*words, '--paged', self.file(done.out)])
        self.assertEqual((read.status, read.err), (0, ''), read.out.decode())
        self.assertIn(HOLDS, read.out.decode())

    def test_the_score_is_the_chains(self):
        snapshot = json.loads(inside('storage-dump', [*GENERATED, '--json']).out)
        done = inside('to-substrate', ['--seats', '8', '--binary', '--mined', self.mined()], self.snapshot)
        solution = program.report_of(Path(self.mined()).read_bytes()).solution
        given, targets = [], snapshot['targets']
        stays = [i for i, (_, stake, named) in enumerate(snapshot['voters']) if stake and set(named) & set(targets)]
        for voter, shares, last in forms.entries_of(solution):
            given.append((stays[voter], [*shares, (last, 65535 - sum(share for _, share in shares))]))
        listed = [(bytes(32), stake, []) for _, stake, _ in snapshot['voters']]
        _, score = chain_miner.made_of(listed, [bytes(32)] * len(targets), given)
        self.assertEqual(done.out, chain.raw_solution(given, score, 1))

    def test_what_was_not_mined_of_it(self):
        other = inside('from-substrate', ['--seats', '7'], self.snapshot).out
        for path, says in ((self.mined(data=other), 'was not mined of this snapshot and these seats'),
                           (self.file('verdict 0\n', 'checked'), 'has no solution'),
                           (self.file('lost 5\n', 'lost'), 'no weights to work with'),
                           (self.file(program.ask(['mine', '--miner', 'fill'], bundle_of(self.election)).text, 'filled'),
                            'has no solution')):
            self.refused('to-substrate', ['--seats', '8', '--mined', path], self.snapshot, says)

    def test_too_many_targets_for_sixteen_lists(self):
        targets = [bytes([i]) * 32 for i in range(1, 21)]
        listed = [(b'\x50' * 32, 10 ** 9, targets), *((bytes([i]) * 32, 1, [bytes([i]) * 32]) for i in range(1, 21))]
        snapshot = chain.snapshot(listed, targets)
        mined = self.mined('seq', inside('from-substrate', ['--seats', '20'], snapshot).out)
        self.refused('to-substrate', ['--seats', '20', '--mined', mined], snapshot, '--groups 24 has room for them')
        words = ['--seats', '20', '--groups', '24']
        done = inside('to-substrate', [*words, '--mined', mined], snapshot)
        self.assertIn(HOLDS, inside('audit-substrate', [*words, '--solution', self.file(done.out)], snapshot).out.decode())

    def test_what_rounding_costs_is_told(self):
        told = inside('to-substrate', ['--seats', '8', '--mined', self.mined()], self.snapshot).err
        self.assertRegex(told, r'by the chain\'s rounding to parts of 65,535 the weights are, beside what was mined, (worse|better): the ')


@unittest.skipUnless(HAS_LIVE, NO_LIVE)
class LargeNetworks(Files):
    """The sizes of the largest networks: mined by npos-live, made a solution of the chain, and audited."""

    def there_and_back(self, voters: int, seats: int, targets: int, votes: int, groups: str, pages: int) -> None:
        """Mines, makes a solution, and audits it."""
        names = [i.to_bytes(32, 'big') for i in range(1, targets + 1)]
        listed = [((i + 10 ** 6).to_bytes(32, 'big'), 10 ** 14 // (i + 9) + i, [names[(i * 7 + k * k * 3) % targets] for k in range(votes)])
                  for i in range(voters)]
        size = -(-voters // pages)
        cut = [listed[max(0, voters - size * (pages - page)):voters - size * (pages - page - 1)] for page in range(pages)]
        files = [self.file(chain.voters(page), f'page{i}') for i, page in enumerate(cut)]
        words = ['--seats', str(seats), '--voters', *files, '--targets', self.file(chain.vec(names), 'targets'), '--pages', str(pages),
                 '--groups', groups]
        bundle = inside('from-substrate', words)
        self.assertIn('npos-live takes this election', bundle.err)
        mined = program.ask(['mine', '--miner', 'seq'], bundle_of(bundle.out)).text
        solution = inside('to-substrate', [*words, '--mined', self.file(mined, 'mined')])
        done = inside('audit-substrate', [*words, '--paged', self.file(solution.out, 'solution')])
        self.assertEqual((done.status, done.err), (0, ''), done.out.decode())
        self.assertIn(HOLDS, done.out.decode())
        self.assertIn('npos-live check', done.out.decode())

    def test_polkadot(self):
        self.there_and_back(22500, 600, 1000, 16, '16', 32)

    def test_kusama(self):
        self.there_and_back(12500, 1000, 2000, 24, '24', 16)


class WithoutTheLargeProgram(Files):
    def test_it_is_named(self):
        names = [i.to_bytes(32, 'big') for i in range(1, 602)]
        listed = [(name, 10 ** 6, [name]) for name in names]
        given = [(i, [(i, 65535)]) for i in range(600)]
        path = self.file(chain.raw_solution(given, (10 ** 6, 6 * 10 ** 8, 6 * 10 ** 14), 1))
        with mock.patch.dict('os.environ', {'NPOS_LIVE_PROGRAM': '/nowhere/npos-live'}):
            self.refused('audit-substrate', ['--seats', '600', '--solution', path], chain.snapshot(listed, names),
                         '600 seats do not fit: there are 1 to 512 seats), and npos-live, which takes it, is not there')


if __name__ == '__main__':
    unittest.main()
