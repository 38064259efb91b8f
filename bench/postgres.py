"""PostgreSQL as what a box office is timed beside: a server of its own that sells seats of one event from one row."""
import glob
import os
import shutil
import subprocess
import sys

from offices import Timed, timed_by

TAKE = "UPDATE events SET seats_left = seats_left - 1 WHERE name = 'gala' AND seats_left >= 1"
TWO_STATEMENTS = (
    "BEGIN;\n%s;\n"
    "INSERT INTO requests (number, event, amount) VALUES (nextval('numbers'), 'gala', 1);\nCOMMIT;\n" % TAKE
)
ONE_STATEMENT = (
    "WITH sale AS (%s RETURNING 1)"
    " INSERT INTO requests (number, event, amount) SELECT nextval('numbers'), 'gala', 1 FROM sale;\n" % TAKE
)
# The row is free once the sale is committed without a sync. The record behind it is synced, and the sale with it,
# before the client is answered.
EARLY_RELEASE = 'CALL sell(nextval(\'numbers\'));\n'
SELL = (
    'CREATE PROCEDURE sell(number BIGINT) LANGUAGE plpgsql AS $$ BEGIN SET LOCAL synchronous_commit TO off; %s;'
    " IF FOUND THEN INSERT INTO requests (number, event, amount) VALUES (sell.number, 'gala', 1); END IF; COMMIT;"
    " PERFORM pg_logical_emit_message(true, 'sold', ''); COMMIT; END $$" % TAKE
)


def installed() -> str | None:
    """The folder of the newest server that has pgbench beside it, or nothing."""
    found = sorted(glob.glob('/usr/lib/postgresql/*/bin/pgbench'))
    return os.path.dirname(found[-1]) if found else None


class Postgres:
    """A server of its own in a folder, reached over a local socket alone."""

    def __init__(self, binaries: str, folder: str, env: dict[str, str] | None = None) -> None:
        self.binaries = binaries
        self.folder = os.path.join(folder, 'postgres')
        os.mkdir(self.folder)
        self.as_user = []
        if os.geteuid() == 0:
            shutil.chown(self.folder, 'postgres')
            os.chmod(folder, 0o755)
            self.as_user = ['setpriv', '--reuid=postgres', '--regid=postgres', '--init-groups']
        self.data = os.path.join(self.folder, 'data')
        self.run('initdb', '-D', self.data, '-A', 'trust', '-U', 'seller')
        options = "-k %s -c listen_addresses='' -c synchronous_commit=on -c fsync=on" % self.folder
        self.run(
            'pg_ctl', '-D', self.data, '-w', '-l', os.path.join(self.folder, 'log'), '-o', options, 'start', env=env
        )
        self.sql('CREATE TABLE events (name TEXT PRIMARY KEY, seats_left BIGINT NOT NULL)')
        self.sql('CREATE TABLE requests (number BIGINT PRIMARY KEY, event TEXT NOT NULL, amount BIGINT NOT NULL)')
        self.sql('CREATE SEQUENCE numbers CACHE 1000')
        self.sql("INSERT INTO events VALUES ('gala', 1000000000)")
        self.sql(SELL)

    def run(self, name: str, *words: str, env: dict[str, str] | None = None) -> str:
        every = [*self.as_user, os.path.join(self.binaries, name), *words]
        done = subprocess.run(
            every, stdout=subprocess.PIPE, stderr=subprocess.STDOUT, text=True, cwd=self.folder, env=env
        )
        if done.returncode:
            sys.exit('%s: %s' % (name, done.stdout))
        return done.stdout

    def sql(self, line: str) -> None:
        self.run('psql', '-h', self.folder, '-U', 'seller', '-d', 'postgres', '-q', '-c', line)

    def rate(self, form: str, callers: int, each: int) -> Timed:
        """What so many clients came to that make so many sales each."""
        for old in glob.glob(os.path.join(self.folder, 'times.*')):
            os.remove(old)
        script = os.path.join(self.folder, 'sale.sql')
        with open(script, 'w') as out:
            out.write(form)
        words = ['-h', self.folder, '-U', 'seller', '-n', '-M', 'prepared', '-f', script, '-l', '--log-prefix=times']
        threads = min(callers, os.cpu_count() or 1)
        told = self.run('pgbench', *words, '-c', str(callers), '-j', str(threads), '-t', str(each), 'postgres')
        times = []
        for name in glob.glob(os.path.join(self.folder, 'times.*')):
            with open(name) as log:
                times += [int(line.split()[2]) for line in log]
        rate = next(float(line.split()[2]) for line in told.splitlines() if line.startswith('tps'))
        return timed_by(rate, sorted(times))

    def stop(self) -> None:
        self.run('pg_ctl', '-D', self.data, '-m', 'fast', 'stop')
