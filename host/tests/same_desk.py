"""Processes that all use desk 0, each for its own row and numbers: no tick goes to another process's row, and no tick that the program told of is lost."""
import random
import threading
import time

from common import POSITIONS, expect, is_ticked


def said(child, words):
    """A command's lines up to the first that answers it."""
    child.stdin.write((words + '\n').encode())
    line = child.stdout.readline().decode()
    if 'is closed; not kept' in line and words.startswith('save'):
        line = child.stdout.readline().decode()
    return line


class Packer(threading.Thread):
    """A process that opens, ticks and saves, whatever the answers are."""

    def __init__(self, ledger, me, number, end):
        super().__init__()
        self.child, self.me, self.end = ledger.session(), me, end
        self.todo = list(range(me, POSITIONS, number))
        random.Random(me).shuffle(self.todo)
        self.told, self.strays, self.refused = set(), 0, 0

    def visit(self, n):
        opened = said(self.child, f'open 0 {self.me}')
        self.refused += opened.startswith('refused')
        ticked = said(self.child, f'tick 0 {n}')
        self.strays += ticked.startswith('desk 0, row') and f'row {self.me}:' not in ticked
        saved = said(self.child, 'save 0')
        if 'saved row' in saved:
            self.told.add(n)
            self.todo.pop()

    def run(self):
        while time.time() < self.end and self.todo:
            self.visit(self.todo[-1])
        self.child.stdin.close()
        self.child.wait()
        self.child.stdout.close()


def fight(ledger, number, seconds):
    ledger.ok('new')
    for stream in range(number):
        ledger.ok('enrol', 'telemetry', '1', '1', '1', str(stream), '0')
    packers = [Packer(ledger, me, number, time.time() + seconds) for me in range(number)]
    for packer in packers:
        packer.start()
    for packer in packers:
        packer.join()
    sheet = ledger.sheet()
    lost = [(p.me, n) for p in packers for n in p.told if not is_ticked(sheet, p.me, n)]
    astray = [(r, n) for r in range(number) for n in range(POSITIONS) if n % number != r and is_ticked(sheet, r, n)]
    expect(not lost, f'told and not there: {lost[:5]}')
    expect(not astray and not any(p.strays for p in packers), f'ticks in another row: {astray[:5]}')
    expect(sum(p.refused for p in packers), 'the packers never met')
    expect(ledger.is_same(), 'the audit')
    return f'{number} processes at one desk: {sum(len(p.told) for p in packers)} ticks told and there, {sum(p.refused for p in packers)} opens refused'
