"""A readable text of streams, bundles, the inputs of pools and states, and their bytes: help for people, and no part of the
proved program.

One line a value. What stands behind a `#` is a remark. An account is 64 hexadecimal digits, or `@7` for the account
that is the number 7. A solution is `hex:` and digits, or its entries: `5:2/100,3` is voter 5 with a share of 100 for
target 2 and the rest for target 3; no entries are `hex:` and the bytes of sixteen empty lists. A solution is wide where an
entry has more than 16 targets, or where the word `wide` stands before its entries.

    genesis plain                       genesis full            or genesis deferred, with a line
    endow @1 100                        endow @1 100            `defer_eras 2` besides
    block 1                             root @9
    call @1 transfer @2 40              seats 2
    call @1 bond 60                     era_blocks 6 ..
    end                                 thresholds 100 1000 ..

    bundle                              pool @9
    seats 2                             bonding_eras 1
    target @1                           endow @1 100
    voter @4 60 0 1                     item @1 join 60
    packed 40 100 5200 0:0 1:1          item @9 next_era
                                        end

The work of a bundle is `packed`, or `nothing`, or `plain`, `committee 0 1` and a line `edge 0 0 60` for each edge.

A state has its parts in the order of their bytes; all but the lines `due`, `sums`, `next_submission` and `next_slash` may be
missing. Behind them may stand blocks and `end`: then the text is what `npos resume` reads.

    state plain             or `state full`, with the params of a genesis and `defer_eras`, a line each
    due 6                   the number of the next block
    sums 500 5 12           genesis, minted, burned
    row @1 40 55 5/3 12     free, active, chunks as value/release, held
    role @1 0 validator 100000000
    role @3 0 nominator @1 @2
    era 1
    member @1 100000000 @1/60 @3/30 7 claimed 0      commission, backers as account/amount, points, whether it is paid, fraction
    round                   and behind it its targets with their commissions, and its voters
    target @1 100000000
    voter @1 60 0
    next_submission 5
    submission 4 @8 40 100 5200 0:0 1:1
    waiting                 and behind it targets, voters, the committee and its edges
    committee 0
    edge 0 0 60
    next_slash 2
    slash 1 3 @1/6 @3/3     the era for which it waits, and who loses how much

For damaged inputs lines at the end add bytes (`bytes ff00`) or leave so many (`cut 71`); `end`, the work or the last parts of
a state may be missing then.
"""
from .forms import KINDS, PARAMS, account_of, name_of
from .reading import Line, Reading, decode
from .scale import Fault, Reader, Refusal, account, byte_list, compact, entries_of, listed, run, score, solution
from .writing import encode, lines_of

__all__ = ['KINDS', 'PARAMS', 'Fault', 'Line', 'Reader', 'Reading', 'Refusal', 'account', 'account_of', 'byte_list', 'compact',
           'decode', 'encode', 'entries_of', 'lines_of', 'listed', 'name_of', 'run', 'score', 'solution']
