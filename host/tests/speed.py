"""How fast the ledger program is. usage: speed.py FOLDER; the numbers of docs/BENCHMARKS.md. FOLDER has `ledger` and `bare` (host/bench-ledger)."""
import os
import subprocess
import sys
import tempfile
import time

import server
from common import Ledger, expect

COMMANDS = {1: 1200, 8: 800}  # of each desk
PASSES = 4
LEDGERS = (1, 10, 100, 1000)
SESSIONS = 8


def record(stream, number):
    """The shortest telemetry record of a stream."""
    label = b'NJPL2I000800' + (100).to_bytes(8, 'big')
    secondary = bytearray(84)
    secondary[0:4] = b'\0\x4e\0\x50'
    secondary[7], secondary[10], secondary[30] = 177, 43, stream
    secondary[22:26] = number.to_bytes(4, 'big')
    return label + b'\0\1\0\x5c\0\2\0\4\1\x0a\xfe\0' + bytes(secondary) + b'\0\x0a\0\0'


def timed(children):
    """Seconds until all of them end."""
    begun = time.perf_counter()
    running = [subprocess.Popen(words, stdin=text and open(text), stdout=subprocess.DEVNULL) for words, text in children]
    expect(all(child.wait() == 0 for child in running), 'a command was refused')
    return time.perf_counter() - begun


def begun(program, place, work, rows=1):
    ledger = Ledger(program, place, work)
    ledger.ok('new')
    for row in range(rows):
        ledger.ok('enrol', 'telemetry', '177', '43', '0', str(row), '0')
    return ledger


def ticks(work, desk, count):
    """A session's lines: a row is opened, and numbers ticked and unticked."""
    path = os.path.join(work, f'lines{desk}.{count}')
    with open(path, 'w') as file:
        file.write(f'open {desk} 0\n' + ''.join(f'{("tick", "untick")[i % 2]} {desk} {i // 2 % 1024}\n' for i in range(count - 2)) + f'drop {desk}\n')
    return path


def rate(t, place, desks, each, words):
    """Commands a second of so many processes on a new ledger."""
    ledger = begun(t['ledger'], place, t['work'])
    return desks * each / timed([words(ledger.place, desk) for desk in range(desks)])


def beside_bare(t, store, place):
    """Commands a second by 1 and by 8 desks, and the bare transactions beside them, in turn; the best of each."""
    for desks, each in COMMANDS.items():
        sides = {'program': lambda name, desk: ([t['ledger'], name], ticks(t['work'], desk, each)),
                 'bare': lambda name, desk: ([t['bare'], name, str(each)], None)}
        best = dict.fromkeys(sides, 0)
        for turn in range(PASSES):
            for side in sorted(sides, reverse=turn % 2):
                best[side] = max(best[side], rate(t, place(f'{side}{desks}.{turn}'), desks, each, sides[side]))
        program, bare = best['program'], best['bare']
        print(f'{store}, {desks} desk(s): {program:.0f} commands a second, bare {bare:.0f}, ratio {bare / program:.2f}', flush=True)


def receive(t, store, place):
    """100,000 records of 32 rows, each number about three times; and the audit."""
    path = os.path.join(t['work'], 'stream')
    with open(path, 'wb') as file:
        file.writelines(record(i % 32, i // 32 % 1024) for i in range(100000))
    best = [1e9, 1e9]
    for turn in range(PASSES):
        ledger = begun(t['ledger'], place(f'r{turn}'), t['work'], rows=32)
        for i, words in enumerate((['receive', '0', path], ['audit'])):
            start = time.perf_counter()
            out = ledger.ok(*words)
            best[i] = min(best[i], time.perf_counter() - start)
    print(f'{store}: a receive of 100000 records {best[0]:.2f} s, the audit of it {best[1]:.2f} s: {out.strip()}', flush=True)


def many(t, database):
    """Marks a second by sessions that work on ever more ledgers of one server, 25 marks to a session."""
    path = os.path.join(t['work'], 'marks')
    with open(path, 'w') as file:
        file.write(''.join(f'mark 0 0 +{n}\n' for n in range(25)))
    for number in LEDGERS:
        places = [database.uri(f'm{number}.{i}') for i in range(number)]
        first = begun(t['ledger'], places[0], t['work'])
        names = ','.join(f"('m{number}.{i}')" for i in range(1, number))
        if names:
            database.sql(f"INSERT INTO hernganow.ledger SELECT n.name, base, sheet, holders, 0 FROM hernganow.ledger l, (VALUES {names}) AS n(name)"
                         f" WHERE l.name = 'm{number}.0'")
        expect(first, 'a ledger')
        children, done, start = [], 0, time.perf_counter()
        while time.perf_counter() - start < 6:
            children = [c for c in children if c.poll() is None]
            while len(children) < SESSIONS:
                children.append(subprocess.Popen([t['ledger'], places[done % number]], stdin=open(path), stdout=subprocess.DEVNULL,
                                                 env=dict(os.environ, HERNGANOW_WHO=str(done))))
                done += 1
            time.sleep(0.002)
        for child in children:
            child.wait()
        took = time.perf_counter() - start
        print(f'{number} ledgers in one PostgreSQL, {SESSIONS} sessions: {25 * done / took:.0f} marks a second', flush=True)


def main():
    folder = sys.argv[1]
    work = tempfile.mkdtemp(dir=folder)
    t = {'ledger': os.path.join(folder, 'ledger'), 'bare': os.path.join(folder, 'bare'), 'work': work}
    database = server.Server()
    database.let_go()
    try:
        for store, place in (('SQLite', lambda name: os.path.join(work, name)), ('PostgreSQL', database.uri)):
            beside_bare(t, store, place)
            receive(t, store, place)
        many(t, database)
    finally:
        database.remove()


if __name__ == '__main__':
    main()
