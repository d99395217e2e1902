"""Every command on one ledger, as a person uses it. Checks what it does in the exported sheet, or in the reference's listing."""
import os
import subprocess

from common import expect, is_ticked

STREAMS = [('telemetry', 177, 43, 2, 1, 4294967270), ('telemetry', 177, 43, 2, 2, 1), ('telemetry', 177, 43, 2, 3, 1), ('rsr', 177, 43, 1, 1, 0),
           ('rsr', 177, 43, 1, 2, 65510)]
EACH = 48  # records of each stream of the good night


def listed(reference, stream):
    """How many records the reference finds."""
    lines = subprocess.run([reference, 'list', stream], capture_output=True, text=True, check=True).stdout.splitlines()
    return sum(len(line.split()) == 4 and line[0].isdigit() for line in lines)


def enrol(ledger):
    ledger.ok('new')
    ledger.refused(None, 'new')
    for row, stream in enumerate(STREAMS):
        words = [str(w) for w in stream]
        expect(f'enrolled as row {row}, {" ".join(words[:5])}, ' in ledger.ok('enrol', *words), 'enrol')
    ledger.refused(23, 'enrol', 'rsr', '177', '43', '1', '1', '5')
    ledger.refused(22, 'enrol', 'telemetry', '1024', '0', '0', '0', '0')
    ledger.refused(32, 'enrol', 'rsr', '1', '1', '1', '1', '65536')


def receive(ledger, samples, reference):
    night = os.path.join(samples, 'good-night')
    count = listed(reference, night)
    out = ledger.ok('receive', '0', night)
    expect(out.count(f'{EACH} ticked, 0 already ticked, 0 outside the row; 0 missing') == len(STREAMS), out)
    expect(f'{count} records, read to the end, byte {os.path.getsize(night)}' in out, out)
    expect(ledger.ok('receive', '7', night, night).count(f'0 ticked, {EACH} already ticked') == 2 * len(STREAMS), 'the same night again')
    sheet = ledger.sheet()
    expect(all(is_ticked(sheet, r, p) == (p < EACH) for r in range(len(STREAMS)) for p in range(1024)), 'the sheet of the night')


def first_record(path):
    with open(path, 'rb') as file:
        night = bytearray(file.read())
    return night[:20 + int.from_bytes(night[12:20], 'big')]


def unfiled(ledger, path):
    """What the program says of a stream that is not filed completely."""
    status, out, err = ledger.run('receive', '0', path)
    expect(status == 1, f'{path}: {status} {out}{err}')
    return out + err


def receive_wrong(ledger, samples, work):
    """Streams that stop; records out of range, of no row and outside the row; if one file is missing, the command does nothing."""
    cut = unfiled(ledger, os.path.join(samples, 'refusal-06'))
    expect('3 records, stopped at byte 2564, where only 139 bytes are left' in cut and 'refused 6: ' in cut, cut)
    wrong = unfiled(ledger, os.path.join(samples, 'refusal-05'))
    expect('3 records, stopped at byte 2564, for what is at byte 2576' in wrong and 'refused 5: ' in wrong, wrong)
    expect('row 3, rsr 177 43 1 1, 252 missing: 48-299' in ledger.ok('missing'), 'what came with the wrong streams')
    ledger.ok('mark', '0', '3', '-300')
    record = first_record(os.path.join(samples, 'good-night'))
    strange, far, bad = bytearray(record), bytearray(record), bytearray(record)
    strange[42] = 9                                   # another data source
    far[54:58] = (4294967270 - 1).to_bytes(4, 'big')  # the number before the row's first
    bad[60], bad[58] = bad[60] | 3, ord('?')          # a mode with an uplink, and no such band
    path = os.path.join(work, 'mixed')
    with open(path, 'wb') as file:
        file.write(strange + far + bad + record)
    out = unfiled(ledger, path)
    size = len(record)
    expect(f'1 record of a stream with no row: enrol telemetry 177 9 2 1 4294967270' in out, out)
    expect('0 ticked, 1 already ticked, 1 outside the row' in out, out)
    expect(f'the record at byte {2 * size} has a field out of range at byte {2 * size + 58}' in out, out)
    expect(f'4 records, read to the end, byte {4 * size}' in out, out)
    before = ledger.sheet()
    ledger.ok('mark', '0', '1', '-3')
    ledger.cannot('No such file', 'receive', '0', os.path.join(samples, 'good-night'), '/none')
    ledger.cannot('a directory', 'receive', '0', work)
    ledger.ok('mark', '0', '1', '+3')
    expect(ledger.sheet() == before, 'a command that cannot work does nothing')


def visit(ledger):
    """A visit by a person, in a session. The program prints runs so that they can be typed again."""
    lines = ['open 3 1', 'tick 3 60-62 70', 'untick 3 5 6', 'nonsense', 'tick 3 three', 'tick 3 61', 'save 3', 'missing 1']
    status, out, err = ledger.run(text='\n'.join(lines))
    expect('ledger>' not in out, 'a prompt without a terminal')
    expect(status == 2 and "'nonsense' is no command" in err and "'three' is no record number" in err, f'a session goes on: {status} {err}')
    expect('4 ticked; not saved: 4 ticks and 0 unticks' in out and 'saved row 1, visit ' in out, out)
    expect('missing: 5-6 49-59 63-69' in out, out)
    ledger.refused(28, 'mark', '3', '1', '+100', '2000')
    ledger.refused(27, 'save', '3')
    ledger.ok('mark', '3', '1', '+', '5-6', '49-59', '63-69', '-70')
    sheet = ledger.sheet()
    expect([n for n in range(1, 1025) if is_ticked(sheet, 1, n - 1)] == list(range(1, 70)), 'the row after the mark')
    expect(ledger.ok('missing') == 'nothing is missing\n', 'nothing is missing')
    ledger.ok('mark', '0', '4', '+28-30')            # past an RSR stream's highest number
    expect('\n4,rsr,177,43,1,2,22\n' in ledger.ok('missing', '--csv'), 'the order list as CSV')
    ledger.ok('open', '2', '4')
    ledger.ok('tick', '2', '65535-27')
    ledger.ok('save', '2')
    expect('nothing is missing' in ledger.ok('missing', '4'), 'a run past the highest number')


def stale(ledger):
    """A stale save prints what was not kept, as words that can be typed again."""
    ledger.ok('open', '4', '2')
    ledger.ok('tick', '4', '80-82')
    ledger.ok('mark', '5', '2', '+90')
    expect('STALE' in ledger.ok('desks'), 'desks')
    said = ledger.refused(31, 'save', '4')
    expect('not kept: tick 80-82;' in said and 'open it again' in said, said)
    ledger.ok('mark', '4', '2', '-90')


def holders(ledger):
    """A desk belongs to its holder from open to save or drop. The log has a take."""
    ledger.ok('open', '6', '3', who='ann')
    for words in (['open', '6', '3'], ['tick', '6', '1'], ['untick', '6', '1'], ['save', '6'], ['drop', '6'], ['mark', '6', '3', '+1']):
        expect('ann has had desk 6 open since ' in ledger.refused(None, *words, who='bob'), words)
    ledger.ok('tick', '6', '60', who='ann')
    expect('taken over from ann' in ledger.ok('take', '6', who='bob'), 'take')
    ledger.refused(None, 'save', '6', who='ann')
    expect('take desk 6' in ledger.ok('log', '1'), 'take is in the log')
    expect('not kept: tick 60;' in ledger.ok('drop', '6', who='bob'), 'drop')
    ledger.refused(27, 'take', '6')


def pictures(ledger):
    # 48, 69, 48, 48 and 57 numbers, 16 to a block; and one in the legend
    expect(ledger.ok('map').count('█') == 3 + 5 + 3 + 3 + 4 + 1, 'map')
    expect(ledger.ok('map', '1').count('█') == 69 + 5, 'map of a row')
    svg = ledger.ok('map', '--svg')
    expect(svg.startswith('<svg ') and svg.endswith('</svg>\n') and svg.count('<text') == 3 + len(STREAMS), 'map --svg')
    ledger.refused(25, 'map', '31')
    ledger.refused(25, 'row', '9')


def whole_ledgers(ledger, make, samples, work):
    """Import, export, season, strike."""
    names = {}
    for month in ('april', 'may', 'june'):
        names[month] = make(month)
        words = names[month].ok('import', os.path.join(samples, 'season', month))
        expect(('converted' in words) == (month == 'may'), words)
    expect(names['april'].ok('season', names['may'].place, names['june'].place).splitlines()[1:5] == [
        f'{r:4}  {t:6}  {m:7}  {p:11}  {n.split("@")[-1]}' for r, t, m, p, n in
        [(2, 65, 0, 0, names['april'].place), (3, 130, 3, 22556, names['may'].place), (2, 193, 1, 5154, names['june'].place), (7, 388, 4, 10204, 'in all')]],
        'the season')
    names['april'].refused(41, 'season', names['april'].place)
    expect(names['june'].sheet() == open(os.path.join(samples, 'season', 'june'), 'rb').read(), 'a sheet in and out again')
    expect('make this sheet from the imported sheet' in names['may'].ok('audit'), 'audit of an import')
    make('none').refused(20, 'import', os.path.join(samples, 'good-night'))
    ledger.ok('open', '1', '0')
    ledger.refused(36, 'strike', '0')
    ledger.ok('drop', '1')
    expect('its 48 ticks are gone' in ledger.ok('strike', '0'), 'strike')
    expect('4 of 32 rows used' in ledger.ok('rows'), 'rows')


def long_log(ledger):
    """More calls than a trace can hold, in one command and in all."""
    lines = ['enrol telemetry 9 9 9 9 0'] + [f'mark 0 0 {sign}0-1023' for _ in range(4) for sign in '+-']
    expect(ledger.run(text='\n'.join(lines))[0] == 0, 'a long log')
    expect(int(ledger.ok('audit').split()[1]) > 8 * 1024, 'the calls of a long log')


def try_terminal(ledger):
    """A session at a terminal has a prompt, and answers before the next one."""
    ledger.ok('new')
    master, slave = os.openpty()
    child = subprocess.Popen([ledger.program, ledger.place], stdin=slave, stdout=slave, stderr=slave)
    os.close(slave)
    os.write(master, b'rows\nnonsense\nquit\n')
    expect(child.wait(60) == 2, 'the status of a session with a wrong word')
    said = os.read(master, 65536).decode().replace('\r', '')
    os.close(master)
    expect(said.count('ledger> ') == 3 and 'ledger> 0 of 32 rows used\n' in said and "'nonsense' is no command" in said, said)
    return 'a prompt for each line'


def try_page(ledger, page):
    """The session on the page prints what the page says."""
    with open(page) as file:
        block = next(b for b in file.read().split('```') if b.startswith('\nledger> '))
    lines = block.strip().splitlines()
    ledger.ok('new')
    _, out, err = ledger.run(text='\n'.join(line[len('ledger> '):] for line in lines if line.startswith('ledger> ')))
    wanted = [line for line in lines if not line.startswith('ledger> ')]
    expect(out.splitlines() == wanted and not err, f'{out}{err}')
    return f'{len(wanted)} answers as on the page'


def try_all(ledger, make, samples, reference, work):
    """Runs all of these tests. Returns a text for the report."""
    enrol(ledger)
    receive(ledger, samples, reference)
    receive_wrong(ledger, samples, work)
    visit(ledger)
    stale(ledger)
    holders(ledger)
    pictures(ledger)
    whole_ledgers(ledger, make, samples, work)
    long_log(ledger)
    last = int(ledger.ok('log', '1').split()[0])
    expect(ledger.ok('audit').rstrip().endswith(f'last visit {last}'), 'the audit tells the last visit')
    for words in (['--help'], ['tick', '--help'], ['map', '--help']):
        ledger.ok(*words)
    ledger.cannot('is no command', 'frobnicate')
    ledger.cannot('say `tick', 'tick')
    return 'every command does what its words say'
