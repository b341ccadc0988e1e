"""Elections by hand: expand, generate, tiny-miner, and the key that shape names."""
from support import EXAMPLES, Scripts, account, ask, needs_program

from npos_text import encode
from npos_text.elections import Election, Voter, bundle_of, generated, levelled, packed

FILLED = '''bundle
seats 2
target @1
target @2
target @3
voter @4 70 0 1
voter @5 30 2
'''
FILL = '''fill
member @1 support 50
  @4 gives 50 of 70
member @3 support 30
  @5 gives 30 of 30
score 30 80 3400
outside @2 prescore 20
'''
# the worked shares: 21845 of 65535 parts of ten are three, and the rest is seven
SHARED = '''price 5
work packed
member @1 support 3
  @3 gives 3 of 10
member @2 support 7
  @3 gives 7 of 10
score 3 10 58
fill
member @1 support 5
  @3 gives 5 of 10
member @2 support 5
  @3 gives 5 of 10
score 5 10 50
'''
BUNDLE = f'"seats":1,"targets":["{account(1)}"],"voters":[{{"account":"{account(2)}","stake":5,"votes":[0]}}]'
WORK = len('{' + BUNDLE + ',"work":')

# what is put in place of a part of the text, and what is said then
SHAPES = [
    ('"stake":5', '"stake":-5', 'voters[0].stake: there stands -5.0, and a whole number below 2^64 was expected'),
    ('"stake":5', '"stake":5.0', 'voters[0].stake: there stands 5.0, and a whole number below 2^64 was expected'),
    ('"stake":5', f'"stake":{1 << 64}',
     'voters[0].stake: there stands 18446744073709551616, and a whole number below 2^64 was expected'),
    ('"stake":5', '"stake":true', 'voters[0].stake: there stands true, and a whole number below 2^64 was expected'),
    ('"stake":5', '"stak":5', 'voters[0]: there stands ["account", "stak", "votes"], and an object with exactly the keys '
     'account, stake, votes was expected'),
    ('[0]', '[0,65536]', 'voters[0].votes[1]: there stands 65536, and a whole number below 2^16 was expected'),
    (account(1), 'ab', 'targets[0]: there stands "ab", and an account of 64 hexadecimal digits was expected'),
    ('null', '{"claim":[1,1,1],"solution":""}',
     'work.claim[2]: there stands 1, and a text of decimal digits without a needless 0 was expected'),
    ('null', '{"claim":[1,1,"1"],"solution":"abc"}',
     'work.solution: there stands "abc", and a text of hexadecimal digits, two a byte was expected'),
    ('null', '{"committee":[0],"edges":[[0,0]]}', 'work.edges[0]: there stands [0, 0], and an array of 3 items was expected'),
    ('null', '0', 'work: there stands 0, and an object with exactly the keys claim, solution was expected'),
    ('null', 'nul', f'no JSON: Expecting value: line 1 column {WORK + 1} (char {WORK})'),
    ('null', 'NaN', 'no JSON: there stands NaN, and a number in range was expected'),
    ('null', '1e999', 'no JSON: there stands 1e999, and a number in range was expected'),
    ('null', r'"\ud800"', r'no JSON: there stands \ud800, and the other half of a character was expected beside it'),
    ('null', '[' * 127 + ']' * 127, 'no JSON for npos: 128 brackets stand in one another, and at most 127 were expected'),
]


class Expanding(Scripts):
    def test_by_hand(self) -> None:
        self.assertEqual(self.written('expand', data=encode(FILLED + 'nothing')).decode(), 'price 50\nwork nothing\n' + FILL)
        shared = 'bundle\nseats 2\ntarget @1\ntarget @2\nvoter @3 10 0 1\n'
        for work in ['packed 3 10 58 0:0/21845,1', 'plain\ncommittee 0 1\nedge 0 0 3\nedge 0 1 7']:
            written = self.written('expand', data=encode(shared + work)).decode()
            self.assertEqual(written.replace('work plain', 'work packed'), SHARED)

    def test_refused(self) -> None:
        self.assertEqual(self.refused('expand', data=encode('genesis plain\nend')),
                         'no bundle: at 3: short; these bytes are a stream, and a bundle was expected')
        self.assertEqual(self.refused('expand', data=encode(FILLED.replace('70 0 1', '70 0 9') + 'nothing')),
                         'no election: voter 0 votes for 9, and there are 3 targets')
        self.assertEqual(self.refused('expand', data=encode(FILLED + 'packed 1 1 1 5:0')),
                         'the solution has an entry of voter 5 for [0], and positions that there are were expected')
        self.assertEqual(self.refused('expand', data=encode(FILLED + 'packed 1 1 1 hex:00')), 'at 1: short')


    def test_the_numbers_behind_verdicts(self) -> None:
        """Of the examples: their expected lines were made by another program."""
        seen = set()
        for path in EXAMPLES.glob('check/*.txt'):
            kind, number, *numbers = path.with_suffix('.out').read_text().split()
            if kind == 'fault' or number not in ('0', '9', '10'):
                continue
            seen.add(number)
            bundle = bundle_of(encode(path.read_text()))
            weights = bundle.weights()
            assert weights is not None
            prescores, price = weights.prescores(bundle.election), bundle.election.price
            if number == '9':
                self.assertEqual([str(one) for one in weights.score()], numbers)
            if number == '10':
                self.assertEqual(str(prescores[int(numbers[0])]), numbers[1])
            self.assertEqual(number == '10', max(prescores.values(), default=0) >= price, path)
        self.assertEqual(seen, {'0', '9', '10'})


class Generating(Scripts):
    def test_the_worked_seed(self) -> None:
        voter = f'{1:032x}{1:032x}'
        due = encode(f'bundle\nseats 1\ntarget @1\ntarget @2\ntarget @3\ntarget @4\nvoter {voter} 1951807 1\nnothing')
        self.assertEqual(self.written('generate', '--seed', '0', '--voters', '1', '--seats', '1'), due)

    def test_the_report_beside(self) -> None:
        election = generated(7, 2000, 32)
        self.assertEqual((len(election.targets), len(election.voters), election.total), (128, 2000, 2989752419))


class Mining(Scripts):
    def test_levelling(self) -> None:
        """A voter of 60 for two targets and one of 40 for the first: 10 and 50 of the first voter, rounded down as packed."""
        election = Election(2, ['@1', '@2', '@3'], [Voter('@4', 60, [0, 1]), Voter('@5', 40, [0])])
        weights = levelled(election, [0, 1], 8)
        self.assertEqual(weights.edges, {(0, 0): 10, (0, 1): 50, (1, 0): 40})
        self.assertEqual(packed(election, weights), [(1, [], 0), (0, [(0, 10922)], 1)])

    def test_a_small_election(self) -> None:
        """Two members share 70 as 35 and 35, of which 34 and 36 are left as packed; the others would have 70 and 30."""
        bundle = bundle_of(self.written('tiny-miner', data=encode(FILLED + 'nothing')))
        self.assertEqual(bundle.work[1:4], ['34', '70', '2452'])

    @needs_program
    def test_it_wins_somewhere(self) -> None:
        election = generated(7, 200, 16).spelled()
        mined = self.written('tiny-miner', data=election)
        self.assertEqual(ask('check', data=mined).stdout, b'verdict 0\n')
        other = ask('mine', '--miner', 'mms', data=election).stdout.decode().splitlines()
        least = next(int(line.split()[1]) for line in other if line.startswith('score'))
        self.assertGreater(int(bundle_of(mined).work[1]), least)


class Shapes(Scripts):
    def test_what_is_named(self) -> None:
        whole = '{' + BUNDLE + ',"work":null}'
        self.assertEqual(self.written('shape', data=whole.encode()), b'a bundle\n')
        for old, new, said in SHAPES:
            with self.subTest(new=new):
                self.assertEqual(self.refused('shape', data=whole.replace(old, new, 1).encode()), said)
        self.assertEqual(self.refused('shape', data=b'[]'), 'the whole: there stands [], and an object with exactly the keys '
                         'seats, targets, voters, work was expected')
