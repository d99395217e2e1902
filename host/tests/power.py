"""A machine loses its power: of SQLite's files only what was synced is left (power.c). Every mark that the program told of is there."""
import os
import shutil
import subprocess

from common import Ledger, expect, is_ticked

MARKS = 60


def lose_power(place):
    """Puts the disk's copies in the files' places. SQLite makes its shared memory again."""
    for ending in ('', '-wal'):
        if os.path.exists(place + ending):
            os.unlink(place + ending)
        if os.path.exists(place + ending + '.disk'):
            shutil.move(place + ending + '.disk', place + ending)
    if os.path.exists(place + '-shm'):
        os.unlink(place + '-shm')


def try_power(program, shim, work):
    """Two sessions work; the power is lost after each of several counts of marks."""
    for cut in (1, 7, MARKS):
        ledger = Ledger(program, os.path.join(work, f'power{cut}'), work)
        # Where the program is built with the address sanitizer, that wants to be loaded first.
        env = dict(os.environ, LD_PRELOAD=shim, ASAN_OPTIONS='verify_asan_link_order=0')
        for words in (['new'], ['enrol', 'telemetry', '1', '1', '1', '1', '0']):
            subprocess.run([program, ledger.place, *words], check=True, env=env, capture_output=True)
        sessions = [subprocess.Popen([program, ledger.place], stdin=subprocess.PIPE, stdout=subprocess.PIPE, stderr=subprocess.STDOUT, env=env, bufsize=0)
                    for _ in range(2)]
        for n in range(cut):
            one = sessions[n % 2]
            one.stdin.write(f'mark {n % 2} 0 +{n}\n'.encode())
            expect(b'saved row 0' in one.stdout.readline(), 'a mark')
        for one in sessions:
            one.kill()
            one.wait()
            one.stdin.close()
            one.stdout.close()
        lose_power(ledger.place)
        status, out, err = ledger.run('rows')
        expect(status == 0, f'after {cut} marks the power is lost: {out}{err}')
        sheet = ledger.sheet()
        lost = [n for n in range(cut) if not is_ticked(sheet, 0, n)]
        expect(not lost, f'after {cut} marks the power is lost, and with it {lost[:5]}')
        expect(ledger.is_same(), 'the audit')
    return 'the power is lost after 1, 7 and 60 marks, none of which is'
