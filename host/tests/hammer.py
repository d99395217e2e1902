"""Eight desks work on one ledger at the same time. Each notes what the program told it. At the end every number is as the program said, and the audit
answers "same"."""
import random
import signal
import threading
import time

from common import POSITIONS, Wrong, expect, is_ticked

DESKS, ROWS = 8, 4
UNKNOWN = None


class Died(Exception):
    """The session's process ended; holds what it said before."""


class Failed(Exception):
    """A command could not work; holds the reason."""


class Desk(threading.Thread):
    """One desk. No other desk uses its numbers, so it knows what each must be."""

    def __init__(self, night, number):
        super().__init__()
        self.night, self.number = night, number
        self.random = random.Random(night.seed * DESKS + number)
        self.child, self.out = None, None
        self.states = {}

    # ---- the session

    def start_session(self):
        self.child = self.night.ledger.session(who=f'desk{self.number}')
        self.out = self.child.stdout

    def end_session(self):
        text = self.out.read().decode()
        self.child.stdin.close()
        self.out.close()
        self.child.wait()
        self.child = None
        return text

    def line(self):
        text = bytearray()
        while not text.endswith(b'\n'):
            more = self.out.read(1)
            if not more:
                raise Died(text.decode() + self.end_session())
            text += more
        return text.decode()

    def kill(self, said):
        self.child.send_signal(signal.SIGKILL)
        raise Died(said + self.end_session())

    def say(self, words):
        """A command's last line. Sometimes the process is killed: at any time before that line, or as soon as the line is there."""
        begun = time.perf_counter()
        try:
            self.child.stdin.write((words + '\n').encode())
        except BrokenPipeError:
            raise Died(self.end_session())
        may_kill, is_before = self.night.may_kill(self.random), self.random.random() < 0.5
        if may_kill and is_before:
            time.sleep(self.random.random() * 0.012)
            self.kill('')
        line = self.line()
        if 'is closed; not kept' in line and words.startswith('save'):
            line = self.line()
        self.night.waits.append(time.perf_counter() - begun)
        if line.startswith('ledger: '):
            raise Failed(line)
        if may_kill:
            self.kill(line)
        return line

    # ---- a visit

    def wish(self, row):
        """Three of its numbers, and whether each shall be ticked."""
        mine = [n for n in range(1, POSITIONS + 1) if n % DESKS == self.number]
        return {(row, n): int(self.states.get((row, n), 0) != 1) for n in self.random.sample(mine, 3)}

    def keep(self, wish, line):
        """Notes what the program said after a save or a mark."""
        if ': saved row' in line:
            self.states.update(wish)
            self.night.count('saves')
        elif line.startswith('refused 31'):
            self.night.count('stale')
        else:
            self.states.update({k: UNKNOWN for k in wish})

    def try_to_keep(self, wish, words):
        """Makes the command that saves the wish. If the program says nothing, the wish may be saved or not."""
        try:
            line = self.say(words)
        except Died as died:
            self.keep(wish, died.args[0])
            raise
        except Failed as failed:
            if 'not known' in failed.args[0]:
                self.keep(wish, '')
            raise
        expect(': saved row' in line or line.startswith('refused 31'), f'{words}: {line}')
        self.keep(wish, line)

    def visit(self, row):
        wish = self.wish(row)
        line = self.say(f'open {self.number} {row}')
        if line.startswith('refused 26'):
            self.say(f'drop {self.number}')
            return
        expect(': open row' in line, line)
        for (_, n), tick in wish.items():
            line = self.say(f'{"tick" if tick else "untick"} {self.number} {n}')
            expect(line.startswith(f'desk {self.number}, row {row}: '), line)
        self.try_to_keep(wish, f'save {self.number}')

    def mark(self, row):
        wish = self.wish(row)
        words = ' '.join(('+' if tick else '-') + str(n) for (_, n), tick in wish.items())
        try:
            self.try_to_keep(wish, f'mark {self.number} {row} {words}')
        except Wrong:
            # A visit that was interrupted has left a row open.
            self.say(f'drop {self.number}')

    def turn(self):
        if not self.child:
            self.start_session()
        (self.visit if self.random.random() < 0.8 else self.mark)(self.random.randrange(ROWS))

    def run(self):
        while not self.night.over.is_set():
            try:
                self.turn()
            except Died:
                self.night.count('died')
            except Failed as failed:
                self.night.take_failure(failed.args[0])
            except Exception as wrong:
                self.night.wrong.append(f'desk {self.number}: {wrong!r}')
                break
        if self.child:
            self.end_session_quietly()

    def end_session_quietly(self):
        self.child.stdin.close()
        self.child.wait()
        self.out.close()


class Night:
    """Eight desks work for some time. `kills` sessions are killed, and `crash` is called `crashes` times."""

    def __init__(self, ledger, seconds=0, kills=0, crash=None, crashes=0, seed=1):
        self.ledger, self.seconds, self.kills, self.crash, self.crashes, self.seed = ledger, seconds, kills, crash, crashes, seed
        self.over, self.lock = threading.Event(), threading.Lock()
        self.counts, self.waits, self.wrong = {}, [], []

    def count(self, what):
        with self.lock:
            self.counts[what] = self.counts.get(what, 0) + 1

    def may_kill(self, chance):
        with self.lock:
            if self.kills <= 0 or chance.random() >= 0.15:
                return False
            self.kills -= 1
        self.count('killed')
        return True

    def take_failure(self, words):
        """A command that cannot work is a failure, unless a server crashed."""
        if self.crash and ('connection' in words or 'not known' in words):
            self.count('not known' if 'not known' in words else 'lost connections')
            time.sleep(0.05)
        else:
            self.wrong.append(words.strip())
            self.over.set()

    def wait(self):
        for _ in range(self.crashes):
            time.sleep(self.seconds / self.crashes)
            self.crash()
        end = time.time() + (0 if self.crashes else self.seconds)
        while not self.over.is_set() and (self.kills > 0 or time.time() < end):
            time.sleep(0.05)

    def run(self):
        self.ledger.ok('new')
        for stream in range(ROWS):
            self.ledger.ok('enrol', 'telemetry', '177', '43', '2', str(stream), '1')
        desks = [Desk(self, n) for n in range(DESKS)]
        begun = time.time()
        for desk in desks:
            desk.start()
        self.wait()
        self.over.set()
        for desk in desks:
            desk.join()
        self.took = time.time() - begun
        return self.judge(desks)

    def judge(self, desks):
        """Every number is as the program last told its desk; numbers that no desk used are not ticked; replaying the log gives the sheet."""
        expect(not self.wrong, f'{len(self.wrong)} commands went wrong: {self.wrong[:3]}')
        sheet = self.ledger.sheet()
        told = {k: s for desk in desks for k, s in desk.states.items()}
        lost = [k for k in ((r, n) for r in range(ROWS) for n in range(1, POSITIONS + 1))
                if told.get(k, 0) is not UNKNOWN and is_ticked(sheet, k[0], k[1] - 1) != told.get(k, 0)]
        expect(not lost, f'{len(lost)} of {len(told)} numbers are not as told: {sorted(lost)[:5]}')
        expect(self.ledger.is_same(), 'the audit')
        expect(self.counts.get('saves', 0) > 0, 'nothing was saved')
        return self.report(len(told))

    def report(self, told):
        waits = sorted(self.waits)
        counts = ', '.join(f'{n} {what}' for what, n in sorted(self.counts.items()))
        return (f'{len(waits)} commands, {len(waits) / self.took:.0f} a second; {counts}; {told} numbers as told; '
                f'waits: half under {1e3 * waits[len(waits) // 2]:.1f} ms, 99 of 100 under {1e3 * waits[len(waits) * 99 // 100]:.0f}, '
                f'the longest {1e3 * waits[-1]:.0f}')
