"""What the tests of the ledger program share: a ledger, its sheet, and failures."""
import os
import subprocess

ROWS_AT, ROW_BYTES, TICKS_AT, POSITIONS = 24, 144, 16, 1024
ENDED = 60  # seconds after which a command counts as hung


class Wrong(Exception):
    """A test that found something."""


def expect(is_so, words):
    if not is_so:
        raise Wrong(words)


class Ledger:
    """A ledger, and the program that works on it."""

    def __init__(self, program, place, work):
        self.program, self.place, self.work = program, place, work

    def run(self, *words, who=None, text=None, prefix=(), **more):
        """A command's status, and what it says on both outputs."""
        env = dict(os.environ, TZ='UTC', **({'HERNGANOW_WHO': who} if who else {}))
        done = subprocess.run([*prefix, self.program, self.place, *words], input=text, capture_output=True, text=True, env=env,
                              timeout=ENDED, **more)
        return done.returncode, done.stdout, done.stderr

    def ok(self, *words, **more):
        status, out, err = self.run(*words, **more)
        expect(status == 0 and not err, f'{" ".join(words)}: status {status}: {out}{err}')
        return out

    def refused(self, number, *words, **more):
        """Checks that the command is refused with this number (None: by the program itself). Returns the message."""
        status, out, err = self.run(*words, **more)
        start = 'refused: ' if number is None else f'refused {number}: '
        expect(status == 1 and any(line.startswith(start) for line in err.splitlines()), f'{" ".join(words)}: not {start}: {status}: {out}{err}')
        return out + err

    def cannot(self, part, *words, **more):
        """Checks that the command cannot work, and says why."""
        status, out, err = self.run(*words, **more)
        expect(status == 2 and err.startswith('ledger: ') and part in err, f'{" ".join(words)}: not "{part}": {status}: {out}{err}')

    def session(self, who=None):
        """A session with pipes to and from it. Refusals come after the other output."""
        env = dict(os.environ, TZ='UTC', **({'HERNGANOW_WHO': who} if who else {}))
        return subprocess.Popen([self.program, self.place], stdin=subprocess.PIPE, stdout=subprocess.PIPE, stderr=subprocess.STDOUT, bufsize=0,
                                env=env)

    def sheet(self):
        """The sheet's bytes, as the program exports them."""
        path = os.path.join(self.work, 'exported')
        if os.path.exists(path):
            os.unlink(path)
        self.ok('export', path)
        with open(path, 'rb') as file:
            return file.read()

    def is_same(self):
        return self.ok('audit').startswith('same: ')


def is_ticked(sheet, row, position):
    """From the manual's layout of a sheet."""
    return sheet[ROWS_AT + ROW_BYTES * row + TICKS_AT + position // 8] >> position % 8 & 1
