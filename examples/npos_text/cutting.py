"""Streams, and states with the blocks behind them, cut at their blocks."""
from __future__ import annotations

from typing import Dict, Optional

from .chains import stream_of
from .reading import Reading
from .scale import Fault

END = b'\x00'


def places_of(reading: Reading) -> Dict[int, int]:
    """Where each block begins, by its number, and under the next number the end."""
    if reading.fault:
        raise Fault(f'the bytes cannot be read as a {reading.form} {reading.fault}')
    places, number = {}, 0
    for line in reading.lines:
        if line.words[0] == 'due':
            number = int(line.words[1]) - 1
        if line.words[0] == 'block':
            number = int(line.words[1])
            places[number] = line.at
    places[number + 1] = reading.lines[-1].at if reading.lines[-1].words == ['end'] else len(reading.reader.data)
    return places


def place_of(number: int, is_end: bool, places: Dict[int, int]) -> int:
    """Where the block of this number begins, or ends."""
    if number + is_end not in places:
        if len(places) == 1:
            raise Fault(f'there stands {number}, and {min(places) - is_end} was expected, since no block stands there')
        raise Fault(f'there stands {number}, and a block from {min(places)} to {max(places) - 1} was expected')
    return places[number + is_end]


def cut(data: bytes, first: Optional[int], last: Optional[int]) -> bytes:
    """The bytes from the first of these blocks, or from the beginning, to the last one, or to all, with an end."""
    places = places_of(stream_of(data))
    begin = 0 if first is None else place_of(first, False, places)
    end = place_of(max(places) - 1 if last is None else last, True, places)
    if end < begin:
        raise Fault(f'there stands {last}, and a block from {first} on was expected')
    return data[begin:end] + END
