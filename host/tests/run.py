"""Tests the ledger program. usage: run.py FOLDER [LONGER]; host/test makes the programs in FOLDER. LONGER multiplies kills and crashes."""
import os
import sys
import tempfile
import time

import commands
import hammer
import hosts
import mishaps
import power
import same_desk
import server
from common import Ledger, Wrong

ROOT = os.path.dirname(os.path.dirname(os.path.dirname(os.path.abspath(__file__))))
SAMPLES = os.path.join(ROOT, 'samples')
REFERENCE = os.environ.get('REFERENCE', os.path.join(ROOT, 'reference/target/release/reference'))


class Trial:
    """Both stores, and a count of ledgers' names."""

    def __init__(self, folder, longer, database):
        self.folder, self.longer, self.database = folder, longer, database
        self.work = tempfile.mkdtemp(dir=folder)
        os.chmod(self.work, 0o755)
        self.names = 0
        self.wrong = 0

    def program(self, build):
        return os.path.join(self.folder, build)

    def ledger(self, store, build='ledger', name=None):
        """A new ledger in a store, and the build that uses it."""
        self.names += 1
        name = f'{name or "night"}{self.names}'
        place = os.path.join(self.work, name) if store == 'SQLite' else self.database.uri(name)
        return Ledger(self.program(build), place, self.work)

    def show(self, words, test, *arguments):
        """Runs a test and says what it found."""
        begun = time.time()
        try:
            print(f'{words}: {test(*arguments)} ({time.time() - begun:.0f} s)', flush=True)
        except Wrong as wrong:
            self.wrong += 1
            print(f'{words}: WRONG: {wrong}', flush=True)

    def catch(self, build, tries, test):
        """Checks that a wrong build is found, in one of several tries."""
        begun = time.time()
        for _ in range(tries):
            try:
                test(build)
            except Wrong as wrong:
                print(f'wrong build {build}: found ({time.time() - begun:.0f} s): {str(wrong)[:160]}', flush=True)
                return
        self.wrong += 1
        print(f'wrong build {build}: WRONG: not found', flush=True)


def try_store(t, store, build='ledger', share=1.0):
    """The tests of a store; with only a share of the kills and crashes if it is not the first time."""
    make = lambda name: t.ledger(store, build, name)
    times = lambda n: max(1, int(n * share * t.longer))
    t.show(f'{store}: commands', commands.try_all, make('whole'), make, SAMPLES, REFERENCE, t.work)
    t.show(f'{store}: terminal', commands.try_terminal, make('terminal'))
    t.show(f"{store}: README's session", commands.try_page, make('page'), os.path.join(ROOT, 'README.md'))
    t.show(f'{store}: eight desks', lambda: hammer.Night(make('hammer'), seconds=6 * share).run())
    t.show(f'{store}: killed', lambda: hammer.Night(make('killed'), kills=times(300)).run())
    for number in (2, 4):
        t.show(f'{store}: one desk', same_desk.fight, make('fought'), number, max(2, 3 * share))
    if store == 'SQLite':
        t.show(f'{store}: mishaps', mishaps.try_all, t.program(build), tempfile.mkdtemp(dir=t.work), SAMPLES)
        return
    crashes = times(10)
    t.show(f'{store}: server crashes', lambda: hammer.Night(make('crashed'), seconds=2 * crashes, crashes=crashes, crash=t.database.crash).run())
    t.show(f'{store}: mishaps', mishaps.try_server, t.program(build), t.work, t.database)


def try_without(t):
    """A build without PostgreSQL's headers says so."""
    Ledger(t.program('no-postgres'), 'postgresql://host/base#night', t.work).cannot('has no PostgreSQL; install libpq-dev', 'rows')
    return 'a build without PostgreSQL says so'


def try_power(t):
    shim = t.program('power.so')
    for build in ('ledger', 'sanitized'):
        t.show(f'SQLite: power, {build}', power.try_power, t.program(build), shim, tempfile.mkdtemp(dir=t.work))
    t.catch('not-synced', 1, lambda build: power.try_power(t.program(build), shim, tempfile.mkdtemp(dir=t.work)))


def try_wrong(t):
    """Checks that each build with one rule turned off is found."""
    kill = lambda store: lambda build: hammer.Night(t.ledger(store, build), kills=150, seed=t.names).run()
    work = lambda store: lambda build: hammer.Night(t.ledger(store, build), seconds=3).run()
    crash = lambda build: hammer.Night(t.ledger('PostgreSQL', build), seconds=4, crashes=2, crash=t.database.crash).run()
    t.catch('said-early', 5, kill('SQLite'))
    t.catch('plain-begin', 3, work('SQLite'))
    t.catch('no-lock', 3, work('PostgreSQL'))
    t.catch('late-commit', 5, crash)
    t.catch('no-holder', 3, lambda build: same_desk.fight(t.ledger('SQLite', build), 4, 3))


def main():
    folder, longer = sys.argv[1], int(sys.argv[2]) if len(sys.argv) > 2 else 1
    network = hosts.Network()
    is_apart = os.getuid() == 0 and network.make()
    database = server.Server([network.server] if is_apart else [])
    t = Trial(folder, longer, database)
    try:
        for store in ('SQLite', 'PostgreSQL'):
            try_store(t, store)
        try_power(t)
        t.show('PostgreSQL: missing', try_without, t)
        if is_apart:
            for build in ('ledger', 'sanitized'):
                t.show(f'PostgreSQL: hosts, {build}', hosts.try_hosts, t.program(build), t.work, database, network)
        else:
            print('PostgreSQL: hosts: not tried, no network could be made')
        try_wrong(t)
        for store in ('SQLite', 'PostgreSQL'):
            try_store(t, store, 'sanitized', 0.1)
    finally:
        network.remove()
        database.remove()
    sys.exit(1 if t.wrong else 0)


if __name__ == '__main__':
    main()
