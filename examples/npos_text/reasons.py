"""What the numbers and words in the lines of npos mean."""
from __future__ import annotations

import re
from typing import Dict, List

from .forms import shown
from .scale import Fault

# why a call, or an item of a pool, is refused; 34 is not used
REFUSALS: Dict[int, str] = dict(enumerate([
    'not enough free stake, or none active', 'not bonded', 'bonded already', 'below the least bond',
    'no more chunks: 32 stand', 'no chunk', 'the value is 0', 'the account itself', 'more than may ever be issued',
    'no target', 'more than 24 targets', 'a target twice', 'a target is no validator, or the caller',
    '2,048 others are validators', 'a fraction that is 0 or above 10^9, or a commission above it', 'the account has no role',
    'the account is in its bag already', 'the two are in different bags', 'not heavier',
    'not better than the last of a full queue', 'no such era', 'the era is not over', 'not a member of that era',
    'paid already', 'not more than what was reported before', 'no points', 'not the root', 'not in a signed phase',
    'another round', 'the solution is too long', 'no slash of this number waits', '256 slashes wait already', 'no member of the pool',
    '', 'more points than stay', 'no leave is due', '4,096 others are members', 'no more leaves: 32 stand',
    'the pool has points and no stake', 'points of 2^64 or more', 'nobody stays in the pool', 'nothing is credited', 'the last era'], 1))

GENESIS: Dict[int, str] = dict(enumerate([
    'the account of this endowment stands earlier', 'the endowments up to this one sum above 2^63 - 1',
    'the seats are not 1 to 512', 'the phases do not fit an era of so many blocks', 'bonding_eras is not 1 to 84',
    'least_bond is 0', 'this threshold is 0 or not above the one before it', 'queue is not 1 to 16',
    'solution_max is not 1 to 2,097,152', 'defer_eras is not below bonding_eras', 'the account of this endowment is the pool'], 1))

CHECKPOINT: Dict[int, str] = dict(enumerate([
    'the next block has the number 0 or one above 2^32', 'the params have a fault of a genesis: {why}',
    'row {0} does not stand by rising account, or a chunk of it is 0, out of order, or released later than any may be',
    'the rows do not sum to genesis plus minted less burned, or more was made than may ever be issued',
    'the role at place {0} is none that its account can have there', 'the era at place {0} is none that can be kept',
    'the snapshot of the round is none that can stand now',
    'the next number of a submission is none that can be, or the submission at place {0} is none that can wait',
    'row {0} does not hold the deposits of its submissions', 'the committee that waits is none that can stand now',
    'the committee that waits has another verdict than yes: {verdict}',
    'the next number of a slash is none that can be, or the slash at place {0} is none that can wait'], 1))

SNAPSHOT: Dict[int, str] = dict(enumerate([
    'fewer targets than seats', 'the total is below seats times seats', 'the account of this target stands already',
    'the account of this voter stands already', 'this voter votes for a position that is no target',
    'this voter votes twice for a target', 'this voter has no vote', 'this voter has no stake', 'too many targets',
    'too many voters', 'this voter has more than 24 votes', 'the stakes sum to 2^64 or more up to this voter',
    'the seats are 0 or above 512'], 1))

# the reasons of bytes that spell no value, in the order of their numbers
BYTES: Dict[str, str] = {
    'short': 'bytes are missing from there on', 'notshortest': 'the number has a shorter spelling',
    'toowide': 'the number is above its type', 'badtag': 'the byte names no variant',
    'toomany': 'more items than the list may have', 'trailing': 'a byte stands behind the end',
}

FAULTS: Dict[str, str] = {
    'number': 'the block has another number than the due one', 'nosolution': 'the bundle has no work to check',
    'json': 'the text is no JSON', 'shape': 'the JSON is no bundle; examples/shape names the key',
    'long': 'the input has more than 16,777,216 bytes',
}

# what each line looks like, where N is a number and H an account
LINES: List[str] = [
    'block N', 'era N', 'snapshot N targets N voters N total N', 'void N (few|poor)', 'forfeit N N verdict W', 'return N N',
    'reward N N', 'seat N (signed N|fill)', '(member|paid|slashed) H N', 'call N (ok|refused (?!34)([1-9]|[123][0-9]|4[0-3]))', 'deferred N N', 'apply N',
    'end free N active N unlocking N deposits N minted N burned N issuance N', 'pool points N active N pot N credits N',
    'fault N (short|notshortest|toowide|badtag|toomany|trailing|nosolution|json|shape|long)', 'fault N number due N found N',
    'fault 0 genesis ([1-9]|1[01]) N', 'fault 0 checkpoint ([1-9]|10|12) N', 'fault 0 checkpoint 11 W',
    'fault 0 snapshot ([1-9]|1[0-3]) N( N)?', 'score N N N', 'solution [0-9a-f]*', 'lost N', 'verdict W',
    'demo targets N voters N total N', '(fill|seq) score N N N verdict W', 'seq lost N',
]
LINE = re.compile('|'.join(LINES).replace('W', '(0|1 N [1-6]|[23458] N|(6|10) N N|(7|11) N|9 N N N)')
                  .replace('N', '[0-9]{1,39}').replace('H', '[0-9a-f]{64}'))


def report(text: str) -> List[str]:
    """The lines of what npos wrote."""
    lines = text.splitlines()
    for number, line in enumerate(lines, 1):
        if not LINE.fullmatch(line):
            raise Fault(f'line {number}: there stands {shown(line)}, and a line that npos writes was expected')
    return lines


def verdict(words: List[str]) -> str:
    """A verdict in a sentence."""
    said = [
        'yes', 'the solution cannot be read from byte {0} on: {why}', 'there is no voter {0}', 'there is no target {0}, or no member',
        'voter {0} stands twice', 'target {0} stands twice', 'voter {0} does not nominate target {1}',
        'a share of voter {0} is 0, or its shares leave nothing for the last target', 'not one member a seat, but {0} in all',
        'another score than the claim: {0} {1} {2}',
        'the nominators of target {0}, which is outside, have {1} left over: at least the price of a seat',
        'voter {0} gives more than its stake']
    why = list(BYTES.values())[int(words[2]) - 1] if words[0] == '1' else ''
    return said[int(words[0])].format(*words[1:], why=why)


def checkpoint(words: List[str]) -> str:
    """A fault of a state in a sentence."""
    number, detail = int(words[0]), words[1]
    why = GENESIS[int(detail)] if number == 2 and int(detail) in GENESIS else ''
    return CHECKPOINT[number].format(detail, why=why, verdict=verdict(words[1:]) if number == 11 else '')
