"""Elections by pages: their snapshots, solutions and supports, and the pages that are missing or stand twice."""
import unittest
from pathlib import Path
from typing import Dict, List

import chain_encoder as chain
import chain_miner
from support import HAS_PROGRAM, NO_PROGRAM, inside
from test_audit import THEY_HOLD, Case

PALLET, PAGES, ROUND = 'MultiBlockElection', 4, 12


class Paged(Case):
    """The election in four pages, of which page 0 has what is left, in a dump with keys."""

    def setUp(self) -> None:
        super().setUp()
        self.size = -(-len(self.listed) // PAGES)
        first = len(self.listed) - self.size * (PAGES - 1)
        self.starts = [0, *(first + self.size * i for i in range(PAGES - 1)), len(self.listed)]
        self.pages = [chain.voters(self.listed[a:b]) for a, b in zip(self.starts, self.starts[1:])]
        self.dump = self.items_of(self.pages)
        self.path = self.file(self.dump, 'dump')

    def items_of(self, pages: List[bytes], pallet: str = PALLET, turn: int = ROUND) -> Dict[str, str]:
        """The dump of a snapshot."""
        items = {chain.key(pallet, 'PagedVoterSnapshot', chain.u32(turn), chain.u32(i)): chain.hexed(page) for i, page in enumerate(pages)}
        items[chain.key(pallet, 'PagedTargetSnapshot', chain.u32(turn), chain.u32(0))] = chain.hexed(chain.vec(self.targets))
        items[chain.key(pallet, 'DesiredTargets', chain.u32(turn))] = chain.hexed(chain.u32(self.seats))
        return items

    def within(self, first: int = 0) -> List[List[chain.Given]]:
        """The shares by pages, with the voters' numbers within them."""
        return [[(voter - a, parts) for voter, parts in self.made.given if a <= voter < b]
                for a, b in list(zip(self.starts, self.starts[1:]))[first:]]

    def stored(self, who: bytes) -> Dict[str, str]:
        """The pages of a signed submission."""
        keys = [chain.key(PALLET + 'Signed', 'SubmissionStorage', chain.u32(ROUND), who, chain.u32(i)) for i in range(PAGES)]
        return {key: chain.hexed(chain.votes(page, 16)) for key, page in zip(keys, self.within())}

    def words(self, *more: str, dump: str = '', pages: int = PAGES) -> List[str]:
        """The words for a dump that holds all."""
        path = dump or self.path
        return ['--seats', path, '--voters', path, '--targets', path, '--pages', str(pages), *more]

    def paged(self, *more: str, **others):
        """What the script says."""
        return inside('audit-substrate', self.words(*more, **others))

    def check_said(self, words: List[str], says: str) -> None:
        """One sentence that says this, and nothing else."""
        self.refused('audit-substrate', words, b'', says)

    def solution(self) -> str:
        """The file of a PagedRawSolution."""
        return self.file(chain.hexed(chain.paged_solution(self.within(), self.made.score, ROUND)), 'solution')


@unittest.skipUnless(HAS_PROGRAM, NO_PROGRAM)
class Audits(Paged):
    def test_a_paged_solution(self):
        for data in chain.single_forms(chain.paged_solution(self.within(), self.made.score, ROUND)):
            self.check_holds(self.paged('--paged', self.file(data)))
        wide = self.file(chain.paged_solution(self.within(), self.made.score, ROUND, 24))
        self.check_holds(self.paged('--groups', '24', '--paged', wide))
        self.check_said(self.words('--paged', wide), '--groups 24 reads it')

    def test_of_fewer_pages_they_are_the_last(self):
        kept = [one for one in self.made.given if one[0] >= self.starts[2]]
        supports, score = chain_miner.made_of(self.listed, self.targets, kept)
        done = self.paged('--paged', self.file(chain.paged_solution(self.within(2), score, ROUND)))
        said = done.out.decode()
        self.assertIn(f'{len(kept):,} entries, {len(supports):,} members', said)
        self.assertNotIn('it claims the score', said)

    def test_each_form_of_a_dump(self):
        path = self.solution()
        for data in chain.keyed_forms(self.dump):
            self.check_holds(self.paged('--paged', path, dump=self.file(data, 'form')))

    def test_files_without_keys(self):
        files = [self.file(page, f'page{i}') for i, page in enumerate(self.pages)]
        targets = self.file(chain.vec(self.targets), 'targets')
        words = ['--seats', str(self.seats), '--targets', targets, '--pages', '4', '--paged', self.solution(), '--voters', *files]
        self.check_holds(inside('audit-substrate', words))

    def test_stored_pages(self):
        who = self.listed[0][0]
        stored = self.stored(who)
        told = chain.key(PALLET + 'Signed', 'SubmissionMetadataStorage', chain.u32(ROUND), who)
        metadata = chain.hexed(chain.metadata(self.made.score, [True] * PAGES))
        self.check_holds(self.paged('--stored', self.file({**stored, told: metadata})))
        self.check_holds(self.paged('--pallet', PALLET, '--stored', self.file({**stored, told: metadata})))
        scores = chain.vec([b'\x01' * 32 + chain.score((1, 2, 3)), who + chain.score(self.made.score)])
        sorted_scores = {chain.key(PALLET + 'Signed', 'SortedScores', chain.u32(ROUND)): chain.hexed(scores)}
        path = self.file(stored)
        done = self.paged('--stored', path)
        self.assertEqual(done.status, 1)
        for says in ('no claim was handed in', 'and no claim was compared'):
            self.assertIn(says, done.out.decode())
        score = chain.hexed(chain.score(self.made.score))
        for i, claim in enumerate((sorted_scores, chain.hexed(scores), score, {told: metadata}, metadata)):
            self.check_holds(self.paged('--account', who.hex(), '--stored', path, '--claim', self.file(claim, f'claim{i}')))
        self.check_said(self.words('--stored', path, '--claim', self.file(sorted_scores, 'claim')), '--account names the one')

    def test_the_queue_of_the_verifier(self):
        pages = [[(account, sum(amount for _, amount in part), part) for account, _, backers in self.made.supports
                  for part in [[one for one in backers if one[0] in {account for account, _, _ in self.listed[a:b]}]] if part]
                 for a, b in zip(self.starts, self.starts[1:])]
        verifier, turn = PALLET + 'Verifier', chain.u32(ROUND)
        items = {chain.key(verifier, 'QueuedSolutionY', turn, chain.u32(i)): chain.hexed(chain.supports(page)) for i, page in enumerate(pages)}
        stale = {chain.key(verifier, 'QueuedSolutionX', turn, chain.u32(0)): '0x00'}
        holds = {chain.key(verifier, 'QueuedValidVariant', turn): '0x01'}
        score = {chain.key(verifier, 'QueuedSolutionScore', turn): chain.hexed(chain.score(self.made.score))}
        self.check_holds(self.paged('--queued', self.file({**items, **stale, **holds, **score})), THEY_HOLD)
        self.check_holds(self.paged('--queued', self.file({**items, **score})), THEY_HOLD)
        self.check_holds(self.paged('--variant', 'Y', '--queued', self.file({**items, **stale})), THEY_HOLD)
        self.check_said(self.words('--queued', self.file({**items, **stale})), 'QueuedValidVariant tells which holds')
        del items[chain.key(verifier, 'QueuedSolutionY', turn, chain.u32(2))]
        self.check_said(self.words('--queued', self.file(items)), 'page 2 of 4 is missing')

    def test_of_several_rounds_one_is_named(self):
        both = self.file({**self.dump, **self.items_of(self.pages[::-1], turn=ROUND + 1)}, 'both')
        path = self.solution()
        self.check_said(['--seats', '3', '--voters', both, '--targets', both, '--pages', '4', '--paged', path],
                        'more than one round: 12, 13; --round names')
        self.check_holds(self.paged('--round', '12', '--paged', path, dump=both))
        self.check_said(self.words('--round', '5', '--paged', path), 'nothing is there of round 5')
        other = self.file(chain.paged_solution(self.within(), self.made.score, ROUND + 1))
        self.assertIn(f'it is of round {ROUND + 1}, and the snapshot of round {ROUND}', self.paged('--paged', other).out.decode())

    def test_the_pallet_has_another_name(self):
        dump = self.file(self.items_of(self.pages, 'MultiBlock'), 'other')
        self.check_holds(self.paged('--pallet', 'MultiBlock', '--paged', self.solution(), dump=dump))
        self.check_said(self.words('--pallet', 'Wrong', '--paged', self.solution(), dump=dump), 'in a pallet Wrong')

    def test_a_number_beyond_its_page(self):
        pages = self.within()
        pages[1].append((self.size, pages[1][0][1]))
        done = self.paged('--paged', self.file(chain.paged_solution(pages, self.made.score, ROUND)))
        self.assertEqual(done.status, 1)
        self.assertIn(f'page 1 of the solution has an entry of voter {self.size}, and page 1 of the snapshot has {self.size} voters',
                      done.out.decode())


class Parts(Paged):
    def test_a_page_too_few_or_too_many(self):
        path = self.solution()
        for gone in range(PAGES):
            left = {one: value for one, value in self.dump.items()
                    if one != chain.key(PALLET, 'PagedVoterSnapshot', chain.u32(ROUND), chain.u32(gone))}
            self.check_said(self.words('--paged', path, dump=self.file(left, 'left')), f'page {gone} of 4 is missing')
        self.check_said(self.words('--paged', path, pages=3), 'page 3 is there, and --pages says 3')
        words = self.words('--paged', path)
        del words[words.index('--pages'):words.index('--pages') + 2]
        self.check_said(words, 'the constant Pages of its pallet')

    def test_files_without_keys_that_are_not_all(self):
        files = [self.file(page, f'page{i}') for i, page in enumerate(self.pages)]
        common = ['--seats', '3', '--targets', self.file(chain.vec(self.targets), 'targets'), '--paged', self.solution()]
        for chosen, pages, says in ((files[:1], 4, '1 page was handed in, and --pages says 4, so page 1 is missing'),
                                    (files[:3], 4, '3 pages were handed in, and --pages says 4'),
                                    ([files[1], files[2], files[1]], 3, 'files 1 and 3 hold the same page'),
                                    (files, 3, '4 pages were handed in, and --pages says 3'),
                                    ([*files[:3], self.path], 4, 'all of them have to, or none')):
            self.check_said([*common, '--pages', str(pages), '--voters', *chosen], says)

    def test_a_voter_of_two_pages(self):
        shared = [self.pages[0], chain.voters(self.listed[:2] + self.listed[self.starts[1]:self.starts[2]]), *self.pages[2:]]
        dump = self.file(self.items_of(shared), 'shared')
        self.check_said(self.words('--paged', self.solution(), dump=dump), 'stands on the pages 0 and 1')

    def test_pages_that_are_handed_in_as_a_whole(self):
        self.refused('audit-substrate', ['--seats', '3', '--solution', self.solution()], Path(self.path).read_bytes(),
                     '--voters takes its files')
        self.check_said(['--seats', '3', '--voters', self.path, '--pages', '4', '--paged', self.path], '--targets is due besides')
        self.check_said(self.words('--solution', self.file(self.raw)), 'so are its solutions: --paged or --stored takes one')

    def test_a_part_of_a_solution(self):
        who = self.listed[0][0]
        stored = self.stored(who)
        gone = chain.key(PALLET + 'Signed', 'SubmissionStorage', chain.u32(ROUND), who, chain.u32(1))
        left = {one: value for one, value in stored.items() if one != gone}
        self.check_said(self.words('--stored', self.file(left)), 'page 1 of 4 is missing; no part of a solution is taken for the whole')
        second = chain.key(PALLET + 'Signed', 'SubmissionStorage', chain.u32(ROUND), b'\x02' * 32, chain.u32(0))
        other = {**stored, second: '0x' + '00' * 16}
        self.check_said(self.words('--stored', self.file(other)), '2 accounts have one in round 12')
        self.check_said(self.words('--account', 'ab' * 32, '--stored', self.file(other)), 'has none in round 12')
        five = chain.paged_solution([[], *self.within()], self.made.score, ROUND)
        self.check_said(self.words('--paged', self.file(five)), 'the solution has 5 pages, and the election has 4')
        page = self.file(chain.votes(self.within()[1], 16), 'page')
        empty = [self.file(bytes(16), f'empty{i}') for i in range(2)]
        self.check_said(self.words('--stored', page, *empty, page), 'files 1 and 4 hold the same page')


if __name__ == '__main__':
    unittest.main()
