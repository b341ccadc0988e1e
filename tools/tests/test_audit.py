"""From a node's answers to sentences: elections that an independent miner made, in each form and each message."""
import functools
import itertools
import json
import re
import unittest
from typing import List
from unittest import mock

import chain_encoder as chain
import chain_miner
from support import HAS_LIVE, HAS_PROGRAM, NO_LIVE, NO_PROGRAM, Files, inside

HOLDS = 'By the chain\'s rule: it holds.'
THEY_HOLD = 'By the chain\'s rule: they hold.'
PROPORTIONAL = 'Proportional here: yes.'


def whole_elections():
    """Elections whose miner fills all seats, one after the other."""
    for seed in itertools.count():
        listed, targets, seats = chain_miner.election(seed)
        made = chain_miner.mined(listed, targets, seats, rounds=seed % 5)
        if len(made.supports) == seats and sum(stake for _, stake, _ in listed) >= seats * seats:
            yield listed, targets, seats, made


@functools.lru_cache(maxsize=None)
def one_election():
    """An election of a few seats and some voters."""
    return next(one for one in whole_elections() if one[2] > 2 and len(one[0]) > 12)


class Case(Files):
    """One election, with what a node would answer of it."""

    def setUp(self) -> None:
        super().setUp()
        self.listed, self.targets, self.seats, self.made = one_election()
        self.snapshot = chain.snapshot(self.listed, self.targets)
        self.raw = chain.raw_solution(self.made.given, self.made.score, 7)

    def audit(self, *words: str, data: bytes = None, seats: str = ''):
        """What the script says."""
        return inside('audit-substrate', ['--seats', seats or str(self.seats), *words], self.snapshot if data is None else data)

    def check_holds(self, done, says: str = HOLDS) -> None:
        """The work holds by the chain's rule, and its committee is proportional."""
        self.assertEqual((done.status, done.err), (0, ''), done.out.decode())
        self.assertIn(says, done.out.decode())
        self.assertIn(PROPORTIONAL, done.out.decode())

    def check_refused(self, words: List[str], says: str, data: bytes = None) -> None:
        """One sentence that says this, and nothing else."""
        self.refused('audit-substrate', ['--seats', str(self.seats), *words], self.snapshot if data is None else data, says)


@unittest.skipUnless(HAS_PROGRAM, NO_PROGRAM)
class Generated(Files):
    def test_three_hundred_elections(self):
        for i, (listed, targets, seats, made) in enumerate(itertools.islice(whole_elections(), 300)):
            groups = 24 if i % 3 == 0 else 16
            path = self.file(chain.hexed(chain.raw_solution(made.given, made.score, i, groups)))
            done = inside('audit-substrate', ['--seats', str(seats), '--groups', str(groups), '--solution', path],
                          chain.snapshot(listed, targets))
            said, due = done.out.decode(), chain_miner.verdict(listed, targets, seats, made.supports)
            self.assertEqual(done.err, '')
            self.assertIn(HOLDS, said)
            self.assertIn(f'{due[:10].rstrip()}', said)
            if due == 'verdict 0':
                self.assertEqual(done.status, 0, said)
            self.assertIn(due if due == 'verdict 0' else f'exact weights: {due}', said)


@unittest.skipUnless(HAS_PROGRAM, NO_PROGRAM)
class Messages(Case):
    def test_a_raw_solution_in_each_form_and_width(self):
        for data in chain.single_forms(self.raw):
            with self.subTest(data[:30]):
                self.check_holds(self.audit('--solution', self.file(data)))
        wide = chain.raw_solution(self.made.given, self.made.score, 7, 24)
        self.check_holds(self.audit('--groups', '24', '--solution', self.file(wide)))
        self.check_refused(['--solution', self.file(wide)], '--groups 24 reads it')
        self.check_refused(['--groups', '24', '--solution', self.file(self.raw)], '--groups 16 reads it')

    def test_a_snapshot_in_each_form(self):
        path = self.file(self.raw)
        key = chain.key('ElectionProviderMultiPhase', 'Snapshot')
        self.assertTrue(key.startswith('0xede8e4fdc3c8b556f0ce2f77fc2575e396d38fd4'))
        for data in chain.single_forms(self.snapshot) + chain.keyed_forms({key: chain.hexed(self.snapshot), '0x' + '44' * 20: '0x00'}):
            with self.subTest(data[:30]):
                self.check_holds(self.audit('--solution', path, data=data))

    def test_the_seats_of_a_node(self):
        path = self.file(self.raw)
        for i, data in enumerate([*chain.single_forms(chain.u32(self.seats)), *chain.keyed_forms(
                {chain.key('Any', 'DesiredTargets'): chain.hexed(chain.u32(self.seats))})]):
            self.check_holds(self.audit('--solution', path, seats=self.file(data, f'seats{i}')))

    def test_submissions(self):
        signed = chain.signed(self.raw, self.listed[0][0])
        for data in chain.single_forms(signed):
            self.check_holds(self.audit('--submission', self.file(data)))
        several = {chain.key('ElectionProviderMultiPhase', 'SignedSubmissionsMap', chain.u32(i)): chain.hexed(signed) for i in (3, 9)}
        self.check_refused(['--submission', self.file(several)], 'more than one index: 3, 9; --index names')
        self.check_refused(['--index', '4', '--submission', self.file(several)], 'nothing is there of index 4')
        self.check_holds(self.audit('--index', '9', '--submission', self.file(several)))

    def test_a_ready_solution(self):
        ready = chain.ready_solution(self.made.supports, self.made.score, 2)
        key = chain.key('ElectionProviderMultiPhase', 'QueuedSolution')
        for data in chain.single_forms(ready) + chain.keyed_forms({key: chain.hexed(ready)}):
            done = self.audit('--ready', self.file(data))
            self.check_holds(done, THEY_HOLD)
            self.assertIn('an unsigned one', done.out.decode())

    def test_exposures(self):
        other = chain.exposures(self.made.supports[1:], 8, 2)
        for items in (chain.exposures(self.made.supports, 9, 2), chain.exposures(self.made.supports, 9, 64),
                      chain.older_exposures(self.made.supports, 9)):
            for data in chain.keyed_forms(items):
                self.check_holds(self.audit('--exposures', self.file(data)), THEY_HOLD)
            both = self.file({**items, **other})
            self.check_refused(['--exposures', both], 'more than one era: 8, 9; --era names')
            self.check_holds(self.audit('--era', '9', '--exposures', both), THEY_HOLD)

    def test_exposures_in_several_files(self):
        items = list(chain.exposures(self.made.supports, 9, 2).items())
        half = len(items) // 2
        paths = [self.file(dict(part), f'part{i}') for i, part in enumerate((items[:half], items[half:]))]
        self.check_holds(self.audit('--exposures', *paths), THEY_HOLD)

    def test_what_does_not_hold(self):
        least, total, squares = self.made.score
        for claim in ((least + 1, total, squares), (least, total - 1, squares), (least, total, squares - 1)):
            done = self.audit('--solution', self.file(chain.raw_solution(self.made.given, claim, 7)))
            self.assertEqual(done.status, 1)
            self.assertIn('it does not hold, since it claims the score', done.out.decode())
            self.assertIn(PROPORTIONAL, done.out.decode())

    def test_entries_that_a_chain_refuses(self):
        voter, parts = next(one for one in self.made.given if len(one[1]) > 1)
        votes = {account for account in self.listed[voter][2]}
        stranger = next(i for i, account in enumerate(self.targets) if account not in votes)
        rest = [one for one in self.made.given if one[0] != voter]
        for entries, says in (([(voter, [(stranger, 65535)])], f'voter {voter} backs target {stranger}, which it does not nominate'),
                              ([(5000, parts)], 'it names voter 5000, which is none'),
                              ([(voter, [(5000, 65535)])], f'voter {voter} backs number 5000, which is no target'),
                              ([(voter, [(parts[0][0], 65535), parts[1]])], f'the shares of voter {voter} leave nothing'),
                              ([(voter, parts), (voter, parts)], f'voter {voter} has two entries')):
            done = self.audit('--solution', self.file(chain.raw_solution(rest + entries, self.made.score, 7)))
            self.assertEqual(done.status, 1)
            self.assertIn(says, done.out.decode())
            self.assertIn('In short: the chain would refuse the solution', done.out.decode())

    def test_another_number_of_members(self):
        done = self.audit('--solution', self.file(self.raw), seats=str(self.seats - 1))
        self.assertEqual(done.status, 1)
        self.assertIn(f'it elects {self.seats} targets for {self.seats - 1} seats', done.out.decode())
        self.assertIn(f'The work elects {self.seats} members for {self.seats - 1} seats', done.out.decode())

    def test_supports_that_are_no_sums_or_of_another_election(self):
        account, total, backers = self.made.supports[0]
        odd = [(account, total + 1, backers), *self.made.supports[1:]]
        done = self.audit('--ready', self.file(chain.ready_solution(odd, self.made.score)))
        self.assertIn(f'is told as {total + 1:,}', done.out.decode())
        strange = [(account, total, [(b'\x07' * 32, amount) for _, amount in backers]), *self.made.supports[1:]]
        done = self.audit('--ready', self.file(chain.ready_solution(strange, self.made.score)))
        self.assertEqual(done.status, 1)
        self.assertIn('the snapshot may be of another election', done.out.decode())

    def test_what_was_left_out_is_told(self):
        listed = [*self.listed, (b'\x05' * 32, 0, [self.targets[0]]), (b'\x06' * 32, 9, [b'\x08' * 32])]
        said = self.audit('--solution', self.file(self.raw), data=chain.snapshot(listed, self.targets)).out.decode()
        self.assertIn('voters with a stake of 0', said)
        self.assertIn('voters without a vote for a target', said)

    def test_names_and_units(self):
        name = self.file(f'{self.targets[0].hex()} Some Validator\n', 'names')
        done = self.audit('--solution', self.file(self.raw), '--names', name, '--unit', 'DOT', '--decimals', '2')
        self.assertEqual(done.status, 0)
        self.assertRegex(done.out.decode(), r'a seat costs [0-9,]+\.[0-9]{2} DOT\.')


class Refusals(Case):
    def test_a_node_tells_its_error(self):
        message = 'Client error: UnknownBlock: State already discarded for 0x12ab'
        error = {'jsonrpc': '2.0', 'error': {'code': 4003, 'message': message}, 'id': 1}
        for words, data in ((['--solution', self.file(self.raw)], json.dumps(error).encode()),
                            (['--solution', self.file(error)], None)):
            self.check_refused(words, f'the node answered with an error: {message} (code 4003)', data)

    def test_what_is_not_there(self):
        path = self.file(self.raw)
        for data, says in ((b'{"jsonrpc":"2.0","result":null,"id":1}', 'nothing was stored under that key in that block'),
                           (b'{}', 'none of the 0 keys is that of Snapshot'), (b'[]', 'none of the 0 keys'),
                           (json.dumps({chain.key('Any', 'DesiredTargets'): '0x02000000'}).encode(), 'DesiredTargets is there'),
                           (json.dumps([{'result': '0x00'}, {'result': '0x01'}]).encode(), 'a batch of 2 answers'),
                           (json.dumps({chain.key('A', 'Snapshot'): '0x00', chain.key('B', 'Snapshot'): '0x00'}).encode(),
                            'in more than one pallet: --pallet names'),
                           (b'0x123', 'no text of an even number'), (b'["0x12"]', 'a pair of a key and a value is due'),
                           (b'{"0x12": 5}', 'a value 0x.. is due'), (b'{"one": "0x12"}', 'a key 0x.. is due'),
                           (b'"hello"', "where 'hello' stands"),
                           (b'[["0x12","0x34"],["0x12","0x35"]]', 'stands twice, with two values'), (b'', 'the bytes end too early')):
            with self.subTest(says):
                self.check_refused(['--solution', path], says, data)

    def test_words_that_do_not_go_together(self):
        path = self.file(self.raw)
        for words, says in (([], 'there is no work to audit'), (['--solution', path, '--ready', path], 'not allowed with'),
                            (['--solution', path, '--pages', '4'], '--voters names its files'),
                            (['--solution', path, '--claim', path], '--claim is said of --stored and --queued alone'),
                            (['--paged', path], 'was handed in as a whole'), (['--stored', path], 'was handed in as a whole'),
                            (['--queued', path], 'was handed in as a whole'), (['--exposures', path], 'the keys alone tell whose they are'),
                            (['--solution', '/nowhere/file'], 'No such file')):
            with self.subTest(says):
                self.check_refused(words, says)
        self.refused('audit-substrate', ['--seats', 'many', '--solution', path], self.snapshot, 'neither a whole number')

    def test_another_kind_of_work_is_named(self):
        kinds = {'--solution': self.raw, '--submission': chain.signed(self.raw, self.listed[0][0]),
                 '--ready': chain.ready_solution(self.made.supports, self.made.score)}
        paged = chain.paged_solution([self.made.given, self.made.given], self.made.score, 7, 24)
        for option in kinds:
            for other, data in {**kinds, '--paged': paged, 'standard input': self.snapshot}.items():
                if option != other:
                    self.check_refused([option, self.file(chain.hexed(data))], f', which {other} takes')

    def test_exposures_of_which_a_part_is_missing(self):
        items = chain.exposures(self.made.supports, 9, 1)
        paged = [one for one in items if one.startswith(chain.key('Staking', 'ErasStakersPaged'))]
        account = re.search('[0-9a-f]{64}(?=[0-9a-f]{24}$)', paged[0])[0]
        for change, says in (({paged[0]: None}, f'the exposure of {account}: page 0 of'),
                             ({paged[0]: '0x' + '0400'}, 'tells a total of 1, and its backers give 0'),
                             ({paged[0]: '0x' + '0000'}, 'the overview tells'),
                             ({one: None for one in items if one not in paged}, 'no ErasStakersOverview')):
            left = {one: value for one, value in {**items, **change}.items() if value is not None}
            self.check_refused(['--exposures', self.file(left)], says)


@unittest.skipUnless(HAS_PROGRAM, NO_PROGRAM)
class PoorWeights(Files):
    """Committees that are proportional, whose backers were cut to the first one of each member, as a chain may cut them."""

    def elections(self, count: int):
        """Elections, and supports of their committee by which it is not shown to be proportional."""
        for listed, targets, seats, made in whole_elections():
            cut = [(account, backers[0][1], backers[:1]) for account, _, backers in made.supports]
            due = chain_miner.verdict(listed, targets, seats, cut)
            if due != 'verdict 0':
                yield listed, targets, seats, cut, due
                count -= 1
            if count == 0:
                return

    def audited(self, listed, targets, seats, cut):
        """What the script says of such supports."""
        score = chain_miner.evaluate([total for _, total, _ in cut])
        path = self.file(chain.ready_solution(cut, score))
        return inside('audit-substrate', ['--seats', str(seats), '--ready', path], chain.snapshot(listed, targets))

    @unittest.skipUnless(HAS_LIVE, NO_LIVE)
    def test_the_best_weights_are_looked_for(self):
        statuses = set()
        for listed, targets, seats, cut, due in self.elections(60):
            done = self.audited(listed, targets, seats, cut)
            said = done.out.decode()
            self.assertIn(THEY_HOLD, said)
            self.assertIn(f'verdict {due[8:]}', said)
            self.assertRegex(said, 'npos-live (weigh|judge)')
            self.assertIn('Proportional here: yes' if done.status == 0 else 'Proportional here: no', said)
            statuses.add(done.status)
        self.assertIn(0, statuses)

    @unittest.skipUnless(HAS_LIVE, NO_LIVE)
    def test_a_group_that_is_short_of_a_member(self):
        # 140 in all, so that a seat costs 70, which the second voter has; it nominates nobody who is elected
        names = [bytes([i]) * 32 for i in (1, 2, 3)]
        listed = [(b'\x11' * 32, 60, [names[0]]), (b'\x12' * 32, 70, [names[1]]), (b'\x13' * 32, 10, [names[2]])]
        cut = [(names[0], 60, [(b'\x11' * 32, 60)]), (names[2], 10, [(b'\x13' * 32, 10)])]
        done = self.audited(listed, names, 2, cut)
        self.assertEqual(done.status, 1)
        for says in (f'Proportional here: no. Outside is {names[1].hex()}, whom a group of 1 voter nominates. Together they have a stake '
                     'of 70, which pays 1 seat, and what they nominate has 0 members.', 'verdict 10 1 70'):
            self.assertIn(says, done.out.decode())

    def test_without_npos_live_it_is_said_what_could_tell(self):
        with mock.patch.dict('os.environ', {'NPOS_LIVE_PROGRAM': '/nowhere/npos-live'}):
            listed, targets, seats, cut, due = next(self.elections(1))
            done = self.audited(listed, targets, seats, cut)
        self.assertEqual(done.status, 1)
        for says in ('Proportional here: not shown.', 'Poor weights may be the cause', 'npos-live judge would tell', 'is not shown.'):
            self.assertIn(says, done.out.decode())


if __name__ == '__main__':
    unittest.main()
