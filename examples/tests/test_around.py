"""What stands around the program: the wrapper at the top, examples/run and bench/run, with programs that are made up here."""
from __future__ import annotations

import hashlib
import os
import pathlib
import shlex
import shutil
import subprocess
import sys
import tempfile
import unittest
from typing import Tuple

from support import EXAMPLES, TOP, needs_program, program, run

from npos_text import encode

TOOLS = f'{pathlib.Path(sys.executable).parent}:/usr/bin:/bin'
# a kit that builds a program which tells its words and ends with 1, or that fails
BUILDS = '''#!/bin/sh
mkdir -p out && printf '#!/bin/sh\\necho "ran $*"; exit 1\\n' > out/npos && chmod +x out/npos
exit 2
'''
FAILS = '#!/bin/sh\nexit 1\n'


class Folder(unittest.TestCase):
    """Tests with a folder of their own."""

    def setUp(self) -> None:
        folder = tempfile.TemporaryDirectory()
        self.addCleanup(folder.cleanup)
        self.top = pathlib.Path(folder.name).resolve()

    def put(self, place: str, text: str) -> pathlib.Path:
        """A file that can be run."""
        path = self.top / place
        path.parent.mkdir(parents=True, exist_ok=True)
        path.write_text(text)
        path.chmod(0o755)
        return path


class Wrapper(Folder):
    def setUp(self) -> None:
        super().setUp()
        self.put('crates.txt', '# a part\nnpos: std\n')
        self.put('docs/ARCHITECTURE.md', '| `npos` | 2.2 |  | 4 |\n')
        (self.top / 'tools').mkdir()
        for name in ['prove', 'sources']:
            shutil.copy(TOP / 'tools' / name, self.top / 'tools' / name)
        self.source = self.put('crates/npos/src/main.rt', '')
        shutil.copy(TOP / 'npos', self.top / 'npos')

    def ask(self, *words: str, kit: str = '', name: str = 'npos', anew: str = '') -> subprocess.CompletedProcess[str]:
        """Runs the wrapper with a kit on the PATH, or without one."""
        if kit:
            self.put('kit/rt', kit)
        path = f'{self.top}/kit:{TOOLS}' if kit else TOOLS
        return subprocess.run([self.top / name, *words], capture_output=True, text=True, env=dict(os.environ, PATH=path, NPOS_ANEW=anew))

    def release(self) -> None:
        """A program in release/ that was built from the sources as they stand."""
        released = self.put('release/npos', '#!/bin/sh\necho released; exit 0\n')
        sources = subprocess.run([self.top / 'tools/sources', 'npos'], capture_output=True, text=True, check=True).stdout.strip()
        program = hashlib.sha256(released.read_bytes()).hexdigest()
        self.put('release/SUMS', f'# built by a kit\n{sources} {program} npos\n')

    def build(self, is_current: bool) -> pathlib.Path:
        """A program that was built, after the sources or before."""
        program = self.put('crates/npos/out/npos', '#!/bin/sh\necho built; exit 0\n')
        if not is_current:
            os.utime(program, (1, 1))
        return program

    @unittest.skipIf(shutil.which('rt', path=TOOLS), 'rt stands beside the tools of the system')
    def test_without_the_kit_nothing_is_removed(self) -> None:
        done = self.ask('check')
        self.assertEqual((done.returncode, done.stdout), (8, ''))
        self.assertIn('rt of the Rattle kit is not on the PATH', done.stderr)
        program = self.build(is_current=False)
        self.assertEqual(self.ask('check').returncode, 8)
        self.assertTrue(program.exists())

    def test_a_failed_proof_is_no_verdict(self) -> None:
        program = self.build(is_current=False)
        done = self.ask('check', kit=FAILS)
        self.assertEqual((done.returncode, done.stdout), (8, ''))
        self.assertEqual(done.stderr.count('half an hour'), 1)
        self.assertIn('(cd crates/npos && rt try -- WORDS < INPUT)', done.stderr)
        self.assertIn('npos is not proved; out/prove/npos.log says more', done.stderr)
        self.assertFalse(program.exists())

    def test_it_builds_and_runs(self) -> None:
        done = self.ask('check', '--a b', kit=BUILDS)
        self.assertEqual((done.returncode, done.stdout), (1, 'ran check --a b\n'))
        self.assertIn('1 of 1 rooms are proved', done.stderr)
        again = self.ask('check')
        self.assertEqual((again.returncode, again.stdout, again.stderr), (1, 'ran check\n', ''))

    @unittest.skipIf(shutil.which('rt', path=TOOLS), 'rt stands beside the tools of the system')
    def test_what_the_gate_built(self) -> None:
        self.release()
        done = self.ask('check')
        self.assertEqual((done.returncode, done.stdout), (0, 'released\n'))
        self.assertIn('NPOS_ANEW=1 ./npos proves and builds it here', done.stderr)
        again = self.ask('check')
        self.assertEqual((again.returncode, again.stdout, again.stderr), (0, 'released\n', ''))
        self.assertEqual(self.ask('check', anew='1').returncode, 8)
        self.source.write_text('// another source')
        self.assertEqual(self.ask('check').returncode, 8)

    @unittest.skipIf(shutil.which('rt', path=TOOLS), 'rt stands beside the tools of the system')
    def test_what_nobody_built(self) -> None:
        self.release()
        self.put('release/npos', '#!/bin/sh\necho another; exit 0\n')
        self.assertEqual(self.ask('check').returncode, 8)

    def test_a_symlink(self) -> None:
        self.build(is_current=True)
        (self.top / 'bin').mkdir()
        (self.top / 'bin/elsewhere').symlink_to(self.top / 'npos')
        done = self.ask('show', name='bin/elsewhere')
        self.assertEqual((done.returncode, done.stdout, done.stderr), (0, 'built\n', ''))


class Gate(Folder):
    """The gate runs the kit's, with no names, and then every folder of tests, whatever either says."""

    def ask(self, kit_status: int, tests_pass: bool, bindings_status: int = 0) -> Tuple[int, str]:
        """The status of a gate with these, and what ran in which order."""
        self.put('.ci/run', (TOP / '.ci/run').read_text())
        self.put('kit/rt', f'#!/bin/sh\necho "rt $*" >> ran\nexit {kit_status}\n')
        for name in ['examples', 'tools']:
            self.put(f'{name}/tests/test_it.py', 'import unittest\nclass It(unittest.TestCase):\n    def test(self):\n'
                     f"        open('ran', 'a').write('{name}\\n')\n        self.assertTrue({tests_pass})\n")
        self.put('bindings/test', f'#!/bin/sh\necho bindings >> ran\nexit {bindings_status}\n')
        (self.top / 'ran').unlink(missing_ok=True)
        path = f'{self.top}/kit:{os.environ["PATH"]}'
        done = subprocess.run([self.top / '.ci/run'], capture_output=True, env=dict(os.environ, PATH=path))
        self.assertEqual(done.stdout, b'')
        return done.returncode, (self.top / 'ran').read_text()

    def test_the_gate(self) -> None:
        ran = 'rt ci\nexamples\ntools\nbindings\n'
        self.assertEqual(self.ask(0, True), (0, ran))
        self.assertEqual(self.ask(3, True), (3, ran))
        self.assertEqual(self.ask(0, False), (1, ran))
        self.assertEqual(self.ask(0, True, 1), (1, ran))
        self.assertFalse(list(self.top.glob('**/__pycache__')))


class Examples(Folder):
    def setUp(self) -> None:
        super().setUp()
        shutil.copytree(EXAMPLES / 'npos_text', self.top / 'npos_text')
        shutil.copy(EXAMPLES / 'run', self.top / 'run')
        self.put('check/words', 'check')
        self.put('check/yes.txt', (EXAMPLES / 'check/yes.txt').read_text())
        self.put('check/yes.out', 'verdict 0\n')

    def told(self, program: str) -> Tuple[int, str]:
        """What the script says of a program, and its status."""
        done = run(self.top / 'run', program)
        self.assertEqual(done.stderr.decode(), '')
        return done.returncode, done.stdout.decode()

    def test_a_right_program(self) -> None:
        right = self.put('right', '#!/bin/sh\nfor word; do :; done; [ "$word" = check ] && echo verdict 0\n')
        self.assertEqual(self.told(str(right)), (0, '1 passed, 0 failed\n'))

    def test_a_wrong_program(self) -> None:
        wrong = self.put('wrong', '#!/bin/sh\necho verdict 1\nexit 1\n')
        status, said = self.told(str(wrong))
        self.assertEqual((status, said.splitlines()[0]), (1, 'check/yes: status 1, due 0; wrote'))
        self.assertTrue(said.endswith('0 passed, 1 failed\n'))

    def test_the_bytes_of_a_state(self) -> None:
        self.put('checkpoint/words', 'checkpoint')
        for end in ['txt', 'state']:
            self.put(f'checkpoint/plain.{end}', (EXAMPLES / f'checkpoint/plain.{end}').read_text())
        state = self.put('kept', '')
        right = self.put('right', f'#!/bin/sh\nfor word; do :; done\nif [ "$word" = checkpoint ]; then cat {state}; else echo verdict 0; fi\n')
        state.write_bytes(encode((EXAMPLES / 'checkpoint/plain.state').read_text()))
        self.assertEqual(self.told(str(right)), (0, '2 passed, 0 failed\n'))
        state.write_bytes(state.read_bytes()[:-1])
        self.assertEqual(self.told(str(right))[0], 1)

    def test_what_has_no_other_half_is_told(self) -> None:
        self.put('check/alone.txt', 'bundle\nseats 1\nnothing\n')
        self.put('check/bare.out', 'verdict 0\n')
        status, said = self.told('true')
        self.assertEqual(status, 1)
        self.assertIn('check/alone: there is nothing to compare with, and a .out, a .bundle or a .state was expected\n', said)
        self.assertIn('check/bare: there is no text to read, and a .txt or a .json was expected\n', said)

    def test_one_sentence(self) -> None:
        self.put('check/yes.txt', 'bundle\nseats x\n')
        self.assertIn('check/yes.txt: line 2: there stands x, and', self.told('true')[1])
        for program, said in [('/no/such', 'run: /no/such: No such file or directory\n'),
                              (str(self.put('unbuilt', '#!/bin/sh\nexit 8\n')), 'run: the program is not built\n')]:
            self.put('check/yes.txt', (EXAMPLES / 'check/yes.txt').read_text())
            done = run(self.top / 'run', program)
            self.assertEqual((done.returncode, done.stdout, done.stderr.decode()), (2, b'', said))


class Origins(Folder):
    """Where want of memory comes from, as `bench/origins` finds it in some code."""

    def place(self, body: str) -> subprocess.CompletedProcess[bytes]:
        self.put('bench/origins', (TOP / 'bench/origins').read_text())
        self.put('crates/room/src/lib.rt', f'fn push(list: &mut Vec<u8>) -> Result<(), NoMemory>\n{{\n    {body}\n}}\n')
        return run(self.top / 'bench/origins')

    def test_the_code_has_one_origin(self) -> None:
        self.assertEqual(run(TOP / 'bench/origins').returncode, 0)

    def test_what_is_handed_on_is_none(self) -> None:
        for body in ['list.push(0)?;\n    Ok(())', 'match list.push(0) {\n        Ok(()) => Ok(()),\n        Err(Fault::NoMemory) => Err(NoMemory),\n    }']:
            self.assertEqual(self.place(body).returncode, 0)

    def test_another_cause_beside_it_is_one_more(self) -> None:
        for body in ['match list.push(0) {\n        Ok(()) => Ok(()),\n        Err(Fault::Spent | Fault::NoMemory) => Err(NoMemory),\n    }',
                     'match list.push(0) {\n        Ok(()) => {}\n        Err(Fault::NoMemory) => return Err(NoMemory),\n    }\n    Err(NoMemory)']:
            self.assertEqual(self.place(body).returncode, 1)

    def test_what_is_made_is_one_more(self) -> None:
        done = self.place('match list.push(0) {\n        Ok(()) => Ok(()),\n        Err(_) => Err(NoMemory),\n    }')
        self.assertEqual(done.returncode, 1)
        self.assertTrue(done.stdout.startswith(b'room/src/lib.rt:5: Err(_) => Err(NoMemory),\n'))


class Reading(Folder):
    """The list of what to read is the one that `bench/pages` makes of the specs."""

    def test_the_page_has_the_list(self) -> None:
        done = run(TOP / 'bench/pages', '--check')
        self.assertEqual((done.returncode, done.stderr.decode()), (0, ''))

    def test_one_sentence(self) -> None:
        for name, word in [('pages', '--check'), ('origins', '--all')]:
            done = run(TOP / 'bench' / name, '--unknown')
            self.assertEqual((done.returncode, done.stdout), (2, b''))
            self.assertRegex(done.stderr.decode(), rf'^{name}: there stands --unknown, and [^\n]*{word}[^\n]*\n$')


class Bench(Folder):
    def test_it_compares(self) -> None:
        done = run(TOP / 'bench/run', '--rounds', '1', 'bonds', '10', 'true', 'true')
        self.assertEqual((done.returncode, done.stderr), (0, b''))
        self.assertTrue(done.stdout.startswith(b'bonds 10: '))
        other = self.put('other', '#!/bin/sh\necho other\n')
        self.assertEqual(run(TOP / 'bench/run', '--rounds', '1', 'bonds', '10', 'true', str(other)).returncode, 1)

    def test_two_jobs_of_one_input(self) -> None:
        other = self.put('other', '#!/bin/sh\nfor word; do :; done; [ "$word" = replay ] && echo other\n')
        done = run(TOP / 'bench/run', '--rounds', '1', 'checkpoint-replay', '10', 'true', str(other))
        self.assertEqual((done.returncode, done.stderr), (0, b''))
        failing = self.put('failing', '#!/bin/sh\nexit 3\n')
        self.assertEqual(run(TOP / 'bench/run', '--rounds', '1', 'checkpoint-replay', '10', 'true', str(failing)).returncode, 1)

    @needs_program
    def test_the_state_of_the_job_resume_stands(self) -> None:
        command = shlex.join(program() or [])
        done = run(TOP / 'bench/run', '--rounds', '1', 'resume', '1', command, command)
        self.assertEqual((done.returncode, done.stderr), (0, b''), done.stdout.decode())

    def test_a_wrapper_stands_for_its_program(self) -> None:
        self.put('crates.txt', '')
        wrapper = self.put('npos', '#!/bin/sh\nexit 2\n')
        self.put('crates/npos/out/npos', '#!/bin/sh\nexit 0\n')
        self.assertEqual(run(TOP / 'bench/run', '--rounds', '1', 'bonds', '10', str(wrapper), 'true').returncode, 0)
        self.put('npos', '#!/bin/sh\nexit 8\n')
        done = run(TOP / 'bench/run', '--rounds', '1', 'bonds', '10', str(wrapper), 'true')
        self.assertEqual((done.returncode, done.stderr.decode()), (2, f'run: {wrapper} has no program to measure\n'))

    def test_one_sentence(self) -> None:
        usage = 'bench/run [--rounds N] [--save FILE] JOB [NUMBER] PROGRAM OTHER'
        for words, said in [(['bonds', 'true'], f'run: there stand 1 words behind the job, and this was expected: {usage}\n'),
                            (['bonds', '/no/such', 'true'], 'run: there stands /no/such, and a command was expected\n'),
                            (['rounds', '1', 'true', 'true'], 'run: there stands 1, and a number from 64 to 16384 was expected\n')]:
            done = run(TOP / 'bench/run', *words)
            self.assertEqual((done.returncode, done.stdout, done.stderr.decode()), (2, b'', said))
