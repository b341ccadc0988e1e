"""What a node, or a tool that asked one, wrote of a chain's storage: one value, or values by their keys.

A value is bytes, `0x..`, hexadecimal digits alone, one of these texts in quotes, a node's whole answer, or {"Some": ..}. Values
by their keys are {"0xKEY": "0xVALUE"}, [["0xKEY", "0xVALUE"]], {"key": .., "value": ..}, {"block": .., "changes": [..]} as of
state_queryStorageAt, the genesis of a raw chain specification, or a list of such.
"""
from __future__ import annotations

import re
from typing import Any, Dict, List, Optional, Sequence, Tuple, Union

import twox
from bundle import json_of
from scale import BadInput

Items = Dict[bytes, bytes]
Parts = Tuple[bytes, ...]

# the items that scripts here read, by the half of a key that their names come to
ITEMS = ['Snapshot', 'DesiredTargets', 'SignedSubmissionsMap', 'QueuedSolution', 'PagedVoterSnapshot', 'PagedTargetSnapshot',
         'SubmissionStorage', 'SubmissionMetadataStorage', 'SortedScores', 'QueuedSolutionX', 'QueuedSolutionY',
         'QueuedValidVariant', 'QueuedSolutionScore', 'ErasStakersOverview', 'ErasStakersPaged', 'ErasStakers']


def is_digits(text: str) -> bool:
    """Whether a text is bytes in hexadecimal, with 0x in front or not."""
    return re.fullmatch('(0x)?([0-9a-fA-F]{2})+', text) is not None


def from_digits(text: str) -> bytes:
    """The bytes of such a text."""
    return bytes.fromhex(text[2:] if text.startswith('0x') else text)


def shown(value: object, most: int = 60) -> str:
    """A value of somebody else's in a sentence: printable, and not long."""
    text = ''.join(letter if letter.isprintable() else ' ' for letter in str(value))
    return text if len(text) <= most else text[:most] + '..'


def stored(data: bytes, what: str) -> Union[bytes, Items]:
    """The value that was handed in, or the values with their keys."""
    text = text_of(data)
    if text is None:
        return data
    if text[:1] in ('{', '[', '"'):
        return of_json(json_of(text.encode(), what), what)
    joined_lines = ''.join(text.split())
    if is_digits(joined_lines):
        return from_digits(joined_lines)
    if text.startswith('0x'):
        raise BadInput(f'{what} begins with 0x and is no text of an even number of hexadecimal digits')
    return data


def text_of(data: bytes) -> Optional[str]:
    """The bytes as a text, without a byte order mark and blanks around it; None where they are none."""
    if data.startswith(b'\xef\xbb\xbf'):
        data = data[3:]
    try:
        text = data.decode()
    except UnicodeDecodeError:
        return None
    # four bytes of a number of seats may begin as JSON does; no text has such letters
    return None if re.search('[\x00-\x08\x0e-\x1f\x7f]', text) else text.strip()


def of_json(value: Any, what: str) -> Union[bytes, Items]:
    """The value, or the values by their keys, of a JSON value."""
    while isinstance(value, (dict, list)):
        inner = unwrapped(value, what)
        if inner is value:
            return by_keys(value, what)
        value = inner
    if value is None:
        raise BadInput(f'{what}: the node answered null, so nothing was stored under that key in that block')
    if not isinstance(value, str) or not is_digits(value):
        raise BadInput(f'{what}: a text 0x.. is due where {shown(value)!r} stands')
    return from_digits(value)


def unwrapped(value: Any, what: str) -> Any:
    """What stands within an answer, an option or a chain specification; the value itself where it is none of these."""
    if isinstance(value, list):
        return value[0] if len(value) == 1 and isinstance(value[0], dict) and 'result' in value[0] else value
    if value.get('error') is not None:
        raise BadInput(f'{what}: the node answered with an error: {error_words(value["error"])}')
    for name in ('result', 'Some', 'genesis', 'raw', 'top', 'changes'):
        if name in value and not is_digits(name):
            return value[name]
    if set(value) & {'jsonrpc', 'id'}:
        raise BadInput(f'{what} is a node\'s answer without a result 0x..')
    return value


def error_words(error: Any) -> str:
    """A node's error in its own words."""
    if not isinstance(error, dict):
        return shown(error, 300)
    words = [shown(error[name], 300) for name in ('message', 'data') if isinstance(error.get(name), str)]
    code = f' (code {shown(error["code"], 20)})' if 'code' in error else ''
    return (': '.join(words) or 'it does not say which') + code


def by_keys(value: Any, what: str) -> Items:
    """The values by their keys, of an object or of a list."""
    items: Items = {}
    for key, one in pairs_of(value, what):
        if not isinstance(key, str) or not is_digits(key):
            raise BadInput(f'{what}: a key 0x.. is due where {shown(key)!r} stands')
        if isinstance(one, dict) and set(one) == {'Some'}:
            one = one['Some']
        if one is None:
            continue
        if not isinstance(one, str) or not (is_digits(one) or one == '0x'):
            raise BadInput(f'{what}: a value 0x.. is due under {shown(key)} where {shown(one)!r} stands')
        put(items, from_digits(key), b'' if one == '0x' else from_digits(one), what)
    return items


def put(items: Items, key: bytes, value: bytes, what: str) -> None:
    """Adds a value, which must not stand there as another one."""
    if items.setdefault(key, value) != value:
        raise BadInput(f'{what}: the key 0x{key.hex()} stands twice, with two values')


def pairs_of(value: Any, what: str) -> List[Tuple[Any, Any]]:
    """Keys with their values, in one of the forms in which tools write them."""
    if isinstance(value, dict):
        return [(value['key'], value['value'])] if set(value) == {'key', 'value'} else list(value.items())
    if any(isinstance(one, dict) and 'result' in one for one in value):
        raise BadInput(f'{what}: a batch of {len(value)} answers does not tell which of them is which: hand in each by itself, or '
                       'ask with state_queryStorageAt, which tells the keys')
    pairs: List[Tuple[Any, Any]] = []
    for one in value:
        if isinstance(one, list) and len(one) == 2:
            pairs.append((one[0], one[1]))
        elif isinstance(one, dict) and isinstance(one.get('changes'), list):
            pairs += [(pair[0], pair[1]) for pair in one['changes'] if isinstance(pair, list) and len(pair) == 2]
        elif isinstance(one, dict) and {'key', 'value'} <= set(one):
            pairs.append((one['key'], one['value']))
        else:
            raise BadInput(f'{what}: a pair of a key and a value is due where {shown(one)!r} stands')
    return pairs


# ## By a key

def found(items: Items, item: str, pallet: Optional[str], what: str) -> Dict[bytes, bytes]:
    """The values of an item, or of the entries of a map, by what their keys have behind the item's."""
    half = twox.named(item)
    chosen = {key: value for key, value in items.items()
              if key[16:32] == half and (pallet is None or key[:16] == twox.named(pallet))}
    if len({key[:16] for key in chosen}) > 1:
        raise BadInput(f'{what} has the item {item} in more than one pallet: --pallet names the one that is meant')
    return {key[32:]: value for key, value in chosen.items()}


def missing(items: Items, item: str, pallet: Optional[str], what: str) -> BadInput:
    """What is said where an item is not there, with those that are."""
    names = {twox.named(name): name for name in ITEMS}
    others = sorted({names[key[16:32]] for key in items if key[16:32] in names})
    where = f' in a pallet {pallet}' if pallet else ''
    there = f'; {" and ".join(others)} {"are" if len(others) > 1 else "is"} there' if others else ''
    return BadInput(f'{what}: none of the {len(items):,} keys is that of {item}{where}{there}')


def value_of(data: bytes, what: str, item: str, pallet: Optional[str] = None) -> bytes:
    """The value of an item: the one that was handed in, or the one under the item's key."""
    got = stored(data, what)
    if isinstance(got, bytes):
        return got
    values = found(got, item, pallet, what)
    if b'' not in values:
        raise missing(got, item, pallet, what)
    return values[b'']


def entries(items: Items, item: str, pallet: Optional[str], sizes: Sequence[int], what: str) -> Dict[Parts, bytes]:
    """The entries of a map by the parts of their keys, which have these sizes."""
    chosen: Dict[Parts, bytes] = {}
    for rest, value in found(items, item, pallet, what).items():
        parts = tuple(twox.parts_of(rest, sizes))
        if not parts:
            raise BadInput(f'{what}: a key of {item} is none of a map with the hasher Twox64Concat and parts of '
                           f'{" and ".join(map(str, sizes))} bytes: ..{rest.hex()[:80]}')
        chosen[parts] = value
    return chosen


def joined(files: Sequence[bytes], what: str) -> Union[List[bytes], Items]:
    """The values of several files: all by their keys, or all without."""
    read = [stored(data, what) for data in files]
    plain = [one for one in read if isinstance(one, bytes)]
    if plain and len(plain) < len(read):
        raise BadInput(f'{what}: some of the files tell keys, and some do not; all of them have to, or none')
    if plain:
        return plain
    items: Items = {}
    for one in read:
        for key, value in one.items() if isinstance(one, dict) else ():
            put(items, key, value, what)
    return items


def chosen(numbers: Sequence[int], asked: Optional[int], name: str, flag: str, what: str) -> int:
    """The one of these numbers that is asked for, or the only one."""
    there = sorted(set(numbers))
    if asked is not None:
        if asked not in there:
            raise BadInput(f'{what}: nothing is there of {name} {asked}, but of {listed(there)}')
        return asked
    if len(there) > 1:
        raise BadInput(f'{what}: there is more than one {name}: {listed(there)}; {flag} names the one that is meant')
    return there[0]


def listed(numbers: Sequence[int], most: int = 6) -> str:
    """Some numbers in a sentence."""
    return ', '.join(map(str, numbers[:most])) + (', ..' if len(numbers) > most else '')


def number_of(part: bytes) -> int:
    """A whole number of a key, little end first."""
    return int.from_bytes(part, 'little')
