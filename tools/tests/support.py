"""What the tests share: where the scripts lie, how they are run, and bytes that are written out by hand."""
from __future__ import annotations

import contextlib
import functools
import importlib.machinery
import importlib.util
import io
import json
import os
import subprocess
import sys
import tempfile
import unittest
from pathlib import Path
from typing import List, NamedTuple, Optional
from unittest import mock

TOOLS = Path(__file__).resolve().parent.parent
sys.path.insert(0, str(TOOLS))

import command  # noqa: E402  (the scripts' modules lie beside the scripts)
import program  # noqa: E402

sys.dont_write_bytecode = True

HAS_PROGRAM = program.command() is not None
HAS_LIVE = program.WEIGHER.words() is not None
NO_LIVE = 'npos-live is not built, and NPOS_LIVE_PROGRAM names none'
NO_PROGRAM = 'the proved program is not built, and NPOS_PROGRAM names none'

# the published development accounts, as hexadecimal digits and as addresses of prefix 42
ALICE = 'd43593c715fdd31c61141abd04a99fd6822c8558854ccde39a5684e7a56da27d'
BOB = '8eaf04151687736326c9fea17e25fc5287613693c912909cb226aa4794f26a48'
CHARLIE = '90b5ab205c6974c9ea841be688864633dc9ca8a357843eeacf2314649965fe22'
DAVE = '306721211d5404bd9da88e0204360a1a9ab8b87c66c1bc2fcdd37f3c2222cc20'
EVE = 'e659a7a1628cdd93febc04a4e0646ea20e9f5f0ce097d9a05290d4a9e054df4e'
FERDIE = '1cbd2d43530a44705ad088af313e18f80b53ef16b36177cd4b77b846f2a5f07c'
ADDRESSES = {
    ALICE: '5GrwvaEF5zXb26Fz9rcQpDWS57CtERHpNehXCPcNoHGKutQY',
    BOB: '5FHneW46xGXgs5mUiveU4sbTyGBzmstUspZC92UhjJM694ty',
    CHARLIE: '5FLSigC9HGRKVhB9FiEo4Y3koPsNmBmLJbpXg2mp1hXcS59Y',
    DAVE: '5DAAnrj7VHTznn2AWBemMuyBwZWs6FNFjdyVXUeYum3PTXFy',
    EVE: '5HGjWAeFDfFCWPsjFQdVV2Msvz2XtMktvgocEZcCj68kUMaw',
    FERDIE: '5CiPPseXPECbkjWCa6MnjNokrgYjMqmKndv2rSnekmSK2DjL',
}

# four voters (compact 4 is 10): Charlie with 1,000 for Alice and Bob, Dave with 0 for Alice, Eve with 500 for Ferdie, who is
# no target, and Alice with 40 for herself; two targets, Alice and Bob
SNAPSHOT = ('10'
            + CHARLIE + 'e803000000000000' + '08' + ALICE + BOB
            + DAVE + '0000000000000000' + '04' + ALICE
            + EVE + 'f401000000000000' + '04' + FERDIE
            + ALICE + '2800000000000000' + '04' + ALICE
            + '08' + ALICE + BOB)

# votes1: voter 3 for target 0; votes2: voter 0 with 32,768 parts for target 0 (compact 02000200) and the rest for target 1
VOTES = '04' + '0c' + '00' + '04' + '00' + '00' + '02000200' + '04'
# least support 500, sum 1,040, squares 540 * 540 + 500 * 500 = 541,600 = 0x843a0, each of sixteen bytes; round 7
SCORE = 'f401' + '00' * 14 + '1004' + '00' * 14 + 'a04308' + '00' * 13
ROUND = '07000000'
SOLUTION = VOTES + '00' * 14 + SCORE + ROUND
WIDE_SOLUTION = VOTES + '00' * 22 + SCORE + ROUND

# the bundle that they become: Charlie and Alice stay, and Alice's number 3 is 1 (compact 04)
MOVED_VOTES = '04' + '04' + '00' + '04' + '00' + '00' + '02000200' + '04' + '00' * 14
BUNDLE_HEAD = ('08' + '08' + ALICE + BOB
               + '08' + CHARLIE + 'a10f' + '08' + '00' + '04' + ALICE + 'a0' + '04' + '00')
BUNDLE = BUNDLE_HEAD + '00'
SOLVED_BUNDLE = BUNDLE_HEAD + '01' + 'd107' + '4110' + 'a04308' + '00' * 13 + '64' + MOVED_VOTES


class Done(NamedTuple):
    """What a script wrote, and its status."""
    out: bytes
    err: str
    status: int


def script(name: str, words: List[str], data: bytes = b'', env: Optional[dict] = None) -> Done:
    """Runs a script on bytes."""
    done = subprocess.run([sys.executable, str(TOOLS / name), *words], input=data, capture_output=True, check=False,
                          env={**os.environ, **(env or {})})
    return Done(done.stdout, done.stderr.decode(), done.returncode)


# ## Within this process, which is faster

class Given:
    """Standard input that holds some bytes."""

    def __init__(self, data: bytes):
        self.buffer = io.BytesIO(data)

    def isatty(self) -> bool:
        """Nobody sits before it."""
        return False


@functools.lru_cache(maxsize=None)
def module_of(name: str):
    """A script as a module."""
    loader = importlib.machinery.SourceFileLoader(name.replace('-', '_') + '_script', str(TOOLS / name))
    module = importlib.util.module_from_spec(importlib.util.spec_from_loader(loader.name, loader))
    loader.exec_module(module)
    return module


def inside(name: str, words: List[str], data: bytes = b'') -> Done:
    """Runs a script on bytes within this process."""
    written: List[bytes] = []
    said, status = io.StringIO(), 0
    with mock.patch.object(sys, 'argv', [name, *words]), mock.patch.object(sys, 'stdin', Given(data)), \
            mock.patch.object(command, 'write_all', written.append), contextlib.redirect_stderr(said):
        try:
            module_of(name).main()
        except SystemExit as end:
            status = end.code or 0
    return Done(b''.join(written), said.getvalue(), status)


class Files(unittest.TestCase):
    """Tests that hand files to scripts."""

    def setUp(self) -> None:
        folder = tempfile.TemporaryDirectory()
        self.folder = Path(folder.name)
        self.addCleanup(folder.cleanup)

    def file(self, data, name: str = 'file') -> str:
        """A file with these bytes, with those of a text, or with the JSON of a value."""
        if not isinstance(data, (bytes, str)):
            data = json.dumps(data)
        path = self.folder / name
        path.write_bytes(data if isinstance(data, bytes) else data.encode())
        return str(path)

    def refused(self, name: str, words: List[str], data: bytes, says: str) -> None:
        """One sentence, status 2, and nothing written."""
        done = inside(name, words, data)
        self.assertEqual((done.out, done.status, done.err.count('\n')), (b'', 2, 1), done.err)
        self.assertIn(says, done.err)
