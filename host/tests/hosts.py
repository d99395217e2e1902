"""Desks at three machines: network namespaces with their own addresses. One loses its connection during a commit, and comes back."""
import os
import subprocess
import threading
import time

from common import Ledger, expect, is_ticked

HOSTS = 3


def ip(*words, check=True):
    return subprocess.run(['ip', *words], check=check, capture_output=True).returncode == 0


class Network:
    """A bridge, and a namespace for each host."""

    def __init__(self):
        self.mark = f'hg{os.getpid() % 10000}'
        self.net = f'10.231.{os.getpid() % 250}'
        self.server = f'{self.net}.1'

    def host(self, n):
        return f'{self.mark}h{n}'

    def make(self):
        """Whether the network could be made."""
        if not ip('link', 'add', self.mark, 'type', 'bridge', check=False):
            return False
        ip('addr', 'add', f'{self.server}/24', 'dev', self.mark)
        ip('link', 'set', self.mark, 'up')
        for n in range(HOSTS):
            host, inner, outer = self.host(n), f'{self.mark}i{n}', f'{self.mark}o{n}'
            ip('netns', 'add', host)
            ip('link', 'add', outer, 'type', 'veth', 'peer', 'name', inner)
            ip('link', 'set', inner, 'netns', host)
            ip('link', 'set', outer, 'master', self.mark, 'up')
            ip('-n', host, 'addr', 'add', f'{self.net}.{10 + n}/24', 'dev', inner)
            ip('-n', host, 'link', 'set', inner, 'up')
            ip('-n', host, 'link', 'set', 'lo', 'up')
        return True

    def cut(self, n, is_cut):
        ip('link', 'set', f'{self.mark}o{n}', 'down' if is_cut else 'up')

    def remove(self):
        for n in range(HOSTS):
            ip('netns', 'del', self.host(n), check=False)
            ip('link', 'del', f'{self.mark}o{n}', check=False)
        ip('link', 'del', self.mark, check=False)


class Packer(threading.Thread):
    """A desk at its own machine that marks its numbers one after the other."""

    def __init__(self, ledger, network, me, over):
        super().__init__()
        self.ledger, self.me, self.over = ledger, me, over
        self.prefix = ['ip', 'netns', 'exec', network.host(me)]
        self.told, self.open_ended, self.failed = set(), set(), []

    def mark(self, n):
        status, out, err = self.ledger.run('mark', str(self.me), '0', f'+{n}', prefix=self.prefix)
        if 'saved row 0' in out:
            self.told.add(n)
        elif 'not known' in err:
            self.open_ended.add(n)
        else:
            self.failed.append(err.strip())

    def run(self):
        for n in range(self.me, 1024, HOSTS):
            if self.over.is_set():
                return
            self.mark(n)


def work_apart(program, work, server, network, seconds):
    """The desk at the last host loses its connection twice."""
    place = server.uri(f'hosts-{os.path.basename(program)}', host=network.server, more='?tcp_user_timeout=2000&connect_timeout=3')
    ledger, over = Ledger(program, place, work), threading.Event()
    ledger.ok('new')
    ledger.ok('enrol', 'telemetry', '1', '1', '1', '1', '0')
    packers = [Packer(ledger, network, n, over) for n in range(HOSTS)]
    for packer in packers:
        packer.start()
    for _ in range(2):
        time.sleep(seconds)
        network.cut(HOSTS - 1, True)
        time.sleep(4)
        network.cut(HOSTS - 1, False)
    time.sleep(seconds)
    over.set()
    for packer in packers:
        packer.join()
    return ledger, packers


def try_hosts(program, work, server, network, seconds=2):
    ledger, packers = work_apart(program, work, server, network, seconds)
    sheet = ledger.sheet()
    lost = [n for p in packers for n in p.told if not is_ticked(sheet, 0, n)]
    known = {n for p in packers for n in p.told | p.open_ended}
    expect(not lost, f'told and not there: {lost[:5]}')
    expect(all(n in known for n in range(1024) if is_ticked(sheet, 0, n)), 'a tick that nobody made')
    for packer in packers:
        expect(packer.told, f'the packer at host {packer.me} did nothing')
        expect(all('connection' in words or 'busy' in words for words in packer.failed), f'host {packer.me}: {packer.failed[:2]}')
    cut_off = len(packers[-1].failed) + len(packers[-1].open_ended)
    expect(cut_off, 'the host that was cut off saw nothing of it')
    expect(ledger.is_same(), 'the audit')
    return (f'{HOSTS} hosts, one of them cut off twice: {sum(len(p.told) for p in packers)} marks told and there, '
            f'{cut_off} not done or not known at the host that was cut off')
