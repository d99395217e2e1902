"""A PostgreSQL server in its own folder, on the loopback address."""
import glob
import os
import shutil
import signal
import socket
import subprocess
import tempfile
import time


def free_port():
    with socket.socket() as s:
        s.bind(('127.0.0.1', 0))
        return s.getsockname()[1]


class Server:
    """If a connection asks for commits that are written late, this server never writes them, so that a crash loses them: its writer of the log is held.
    A commit that is not late writes its own part of the log."""

    def __init__(self, addresses=()):
        self.bin = sorted(glob.glob('/usr/lib/postgresql/*/bin'))[-1]
        self.folder = tempfile.mkdtemp(prefix='hernganow.', dir='/var/tmp')
        os.chmod(self.folder, 0o755)
        self.data, self.port = os.path.join(self.folder, 'data'), free_port()
        self.addresses = ['127.0.0.1', *addresses]
        if os.getuid() == 0:
            shutil.chown(self.folder, 'postgres')
        self.run('initdb', '-D', self.data, '-U', 'postgres', '--auth=trust', '--no-sync')
        with open(os.path.join(self.data, 'pg_hba.conf'), 'a') as file:
            file.write('host all all 10.231.0.0/16 trust\n')
        self.start()
        self.sql('CREATE DATABASE hire', base='postgres')

    def run(self, name, *words):
        """Runs a program of the server, which may not run as root."""
        prefix = ['setpriv', '--reuid=postgres', '--regid=postgres', '--clear-groups'] if os.getuid() == 0 else []
        subprocess.run([*prefix, os.path.join(self.bin, name), *words], check=True, stdout=subprocess.DEVNULL, stderr=subprocess.DEVNULL,
                       cwd=self.folder)

    def start(self):
        options = (f"-p {self.port} -c listen_addresses='{','.join(self.addresses)}' -c unix_socket_directories='{self.folder}'"
                   " -c wal_writer_delay=10000 -c max_connections=60")
        self.run('pg_ctl', '-w', '-D', self.data, '-l', os.path.join(self.folder, 'log'), '-o', options, 'start')
        self.writer = int(self.sql("SELECT pid FROM pg_stat_activity WHERE backend_type = 'walwriter'", base='postgres'))
        os.kill(self.writer, signal.SIGSTOP)

    def let_go(self):
        """The writer of the log goes on, which it must to end."""
        try:
            os.kill(self.writer, signal.SIGCONT)
        except ProcessLookupError:
            pass

    def stop(self):
        self.let_go()
        self.run('pg_ctl', '-w', '-D', self.data, '-m', 'fast', 'stop')

    def stop_at_once(self):
        """The writer is told to end before it goes on, so that it writes nothing more."""
        self.run('pg_ctl', '-W', '-D', self.data, '-m', 'immediate', 'stop')
        time.sleep(0.2)
        self.let_go()
        while os.path.exists(os.path.join(self.data, 'postmaster.pid')):
            time.sleep(0.02)

    def crash(self):
        """Ends the server at once, as if its machine were lost, and starts it again."""
        self.stop_at_once()
        self.start()

    def remove(self):
        try:
            self.stop()
        except subprocess.CalledProcessError:
            pass
        shutil.rmtree(self.folder, ignore_errors=True)

    def uri(self, name, user='postgres', host='127.0.0.1', more=''):
        return f'postgresql://{user}@{host}:{self.port}/hire{more}#{name}'

    def as_role(self, role, text):
        """What the server says to another role's statement."""
        done = subprocess.run([os.path.join(self.bin, 'psql'), '-qAtX', '-h', '127.0.0.1', '-p', str(self.port), '-U', role, 'hire', '-c', text],
                              capture_output=True, text=True)
        return done.stdout + done.stderr

    def sql(self, text, base='hire'):
        done = subprocess.run([os.path.join(self.bin, 'psql'), '-qAtX', '-v', 'ON_ERROR_STOP=1', '-h', '127.0.0.1', '-p', str(self.port), '-U', 'postgres',
                               base, '-c', text], check=True, capture_output=True, text=True)
        return done.stdout.strip()
