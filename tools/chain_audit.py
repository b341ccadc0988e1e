"""What can be said of a chain's election, in sentences: whether its work holds by the chain's rule, and whether it is proportional."""
from __future__ import annotations

from typing import List, NamedTuple, Optional

import chain_rule
from accounts import Naming
from bundle import Bundle
from chain_rule import Finding
from moved import Moved, few
from program import WEIGHER, Denial, ask, denial_of, program_for, report_of, verdict_in
from snapshots import Snapshot
from solutions import Solution
from supports import Elected
from verdicts import PROMISE, refused_sentence
from weights import Verdict

ROUNDS = 100  # of balancing, when the best weights of a committee are looked for


class Telling(NamedTuple):
    """How accounts and amounts of stake are told."""
    naming: Naming
    decimals: int = 0
    unit: str = ''

    def amount(self, units: int) -> str:
        """An amount with every unit of stake."""
        whole, rest = divmod(units, 10 ** self.decimals)
        return f'{whole:,}' + (f'.{rest:0{self.decimals}d}' if self.decimals else '') + (f' {self.unit}' if self.unit else '')


class Answer(NamedTuple):
    """A yes, a no, or neither, and the sentences that say why."""
    is_yes: Optional[bool]
    sentences: List[str]


def election_sentences(moved: Moved, telling: Telling) -> List[str]:
    """What is elected from what, and what was left out of the snapshot."""
    bundle = moved.bundle
    first = (f'Election: {bundle.seats:,} seats, {len(bundle.targets):,} targets, {len(bundle.voters):,} voters with a stake of '
             f'{telling.amount(bundle.total())} in all; a seat costs {telling.amount(bundle.price())}.')
    return [first, *map(sentence, moved.words)]


def sentence(word: str) -> str:
    """A word of what was found, as a sentence."""
    return f'{word[:1].upper()}{word[1:]}{"" if word.endswith("..") else "."}'


# ## By the chain's rule

def solution_answer(solution: Solution, finding: Finding, snapshot: Snapshot) -> Answer:
    """Whether a solution holds by the chain's own rule."""
    rounds = {solution.round, snapshot.round} - {None}
    round_wrong = [f'it is of round {solution.round}, and the snapshot of round {snapshot.round}'] if len(rounds) > 1 else []
    turn = '' if solution.round is None else f' of round {solution.round}'
    sentences = [f'Solution{turn}: {len(solution.entries):,} entries, {len(finding.members):,} members.',
                 *map(sentence, few(solution.words))]
    wrong = finding.wrong + round_wrong
    if wrong:
        return Answer(False, sentences + [f'By the chain\'s rule: it does not hold, since {"; ".join(wrong)}.'])
    assert finding.score is not None
    if solution.score is None:
        return Answer(None, sentences + [f'By the chain\'s rule: its entries hold, with the score {words_of(finding.score)}; no claim '
                                         'was handed in to compare that with (--claim).'])
    return Answer(True, sentences + [f'By the chain\'s rule: it holds. With shares rounded to the nearest and normalised its score is '
                                     f'the one that it claims: {words_of(finding.score)}.'])


def words_of(score: chain_rule.Score) -> str:
    """A score in a sentence."""
    return f'least support {score[0]:,}, sum {score[1]:,}, squares {score[2]:,}'


def elected_answer(elected: Elected, wrong: List[str]) -> Answer:
    """Whether supports or exposures hold: sums, score, and accounts of this snapshot."""
    backers = len({account for one in elected.members for account, _ in one.backers})
    first = f'Elected: {len(elected.members):,} accounts with {backers:,} backers; {"; ".join(elected.words) or "supports of the queue"}.'
    if wrong:
        return Answer(False, [first, f'By the chain\'s rule: they do not hold, since {"; ".join(wrong)}.'])
    told = 'no score is told of them' if elected.score is None else f'their score is the one that is told, {words_of(elected.score)}'
    return Answer(True, [first, f'By the chain\'s rule: they hold. Each total is the sum of its backers, and {told}.'])


# ## Proportional or not

def proportional_answer(bundle: Bundle, telling: Telling) -> Answer:
    """Whether the committee of plain work is proportional: by these weights, else by its best ones, else by all groups of voters."""
    program = program_for(bundle)
    report = report_of(ask(['check'], bundle, program).text.encode())
    verdict = report.verdict or ()
    asked = f'{program.name()} check, on the chain\'s exact weights: verdict {" ".join(map(str, verdict))}'
    if verdict == (0,):
        return Answer(True, [f'Proportional here: yes. {PROMISE} ({asked}.)'])
    if verdict[0] != 10:
        return Answer(None, [f'Proportional here: no answer. {refused_sentence(bundle, verdict, telling.naming)} ({asked}.)'])
    return weighed(bundle, verdict, asked, telling)


def weighed(bundle: Bundle, verdict: Verdict, asked: str, telling: Telling) -> Answer:
    """What the best weights of a committee say where the chain's own do not show that it is proportional."""
    name = telling.naming.short(bundle.targets[verdict[1]])
    poor = (f'By the chain\'s own weights the nominators of target {verdict[1]} ({name}), which is outside, have '
            f'{telling.amount(verdict[2])} left, and a seat costs {telling.amount(bundle.price())}. ({asked}.)')
    if WEIGHER.words() is None:
        return Answer(None, [f'Proportional here: not shown. {poor}',
                             'Poor weights may be the cause: backers that were cut, or support that was spread badly, and then the '
                             'committee is proportional all the same. npos-live weigh would look for the best weights of this '
                             f'committee, and npos-live judge would tell for certain; it is not there ({WEIGHER.where()}).'])
    if verdict_in(ask(['weigh', '--rounds', str(ROUNDS)], bundle, WEIGHER).text) == (0,):
        return Answer(True, [f'Proportional here: yes. {PROMISE}',
                             f'It takes better weights than the chain\'s to show it. {poor} The best weights that this committee has '
                             'show that no target outside has a claim. (npos-live weigh: verdict 0.)'])
    return judged(bundle, poor, telling)


def judged(bundle: Bundle, poor: str, telling: Telling) -> Answer:
    """What all groups of voters say, where no weights that were found show that a committee is proportional."""
    denial = denial_of(ask(['judge'], bundle, WEIGHER).text)
    if denial is None:
        return Answer(True, [f'Proportional here: yes. {PROMISE}',
                             f'No weights that were found show it, and yet no group of voters is short of a member. {poor} '
                             f'(npos-live weigh, {ROUNDS} rounds: another verdict than 0; npos-live judge: verdict 0.)'])
    return Answer(False, [f'Proportional here: no. {denial_sentence(denial, telling)} (npos-live judge.)', poor])


def denial_sentence(denial: Denial, telling: Telling) -> str:
    """Which group is short of a member."""
    voters, seats = counted(denial.voters, 'voter'), counted(denial.seats, 'seat')
    return (f'Outside is {telling.naming.whole(denial.account)}, whom a group of {voters} nominates. Together they have a stake of '
            f'{telling.amount(denial.stake)}, which pays {seats}, and what they nominate has {counted(denial.members, "member")}.')


def counted(number: int, name: str) -> str:
    """So many of something."""
    return f'{number:,} {name}{"" if number == 1 else "s"}'


# ## The whole

def in_short(holds: Answer, fair: Optional[Answer], what: str) -> str:
    """What both answers come to."""
    if fair is None:
        return f'In short: the chain would refuse {what}, and without weights nothing is said of who it elects.'
    kept = {True: f'{what} holds by the chain\'s rule', False: f'{what} does not hold by the chain\'s rule',
            None: f'the entries of {what} hold by the chain\'s rule, and no claim was compared'}[holds.is_yes]
    if fair.is_yes is None:
        return f'In short: {kept}; whether the committee that it elects is proportional is not shown.'
    joined = 'and' if fair.is_yes is (holds.is_yes is True) else 'while'
    return f'In short: {kept}, {joined} the committee that it elects is {"" if fair.is_yes else "not "}proportional.'
