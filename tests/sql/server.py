"""A PostgreSQL of its own, with the extension gtd. It is a copy of Debian's in a folder of /tmp, so nothing is installed; as root
it is run by the user nobody. It listens on a socket in that folder alone."""
import json
import os
import shutil
import subprocess
import sys
import tempfile

TOP = os.path.dirname(os.path.dirname(os.path.dirname(os.path.abspath(__file__))))
NOBODY = 65534

# Asks a query for one value, and tells what its error says.
ASKED = """CREATE FUNCTION asked(query text) RETURNS text LANGUAGE plpgsql AS $$
DECLARE answer text; state text; message text; detail text; hint text;
BEGIN
    EXECUTE query INTO answer;
    RETURN answer;
EXCEPTION WHEN OTHERS THEN
    GET STACKED DIAGNOSTICS state = RETURNED_SQLSTATE, message = MESSAGE_TEXT, detail = PG_EXCEPTION_DETAIL,
        hint = PG_EXCEPTION_HINT;
    RETURN concat_ws('|', 'error ' || state, message, detail, hint);
END $$;
"""


def quoted(text):
    return "'" + text.replace("'", "''") + "'"


class Server:
    """A server in a folder of its own, which ends with the block that it is used in."""

    def __enter__(self):
        self.room = tempfile.mkdtemp(prefix="gtd-", dir="/tmp")
        os.chmod(self.room, 0o755)
        said = subprocess.run(["pg_config", "--bindir", "--pkglibdir", "--sharedir"], check=True, capture_output=True, text=True)
        bins, libs, share = said.stdout.split()
        # The server finds its other folders from where its program is.
        self.bins = self.room + bins
        shutil.copytree(bins, self.bins)
        shutil.copytree(libs, self.room + libs, ignore=shutil.ignore_patterns("bitcode", "pgxs"))
        shutil.copytree(share, self.room + share)
        build = os.path.join(self.room, "build")
        os.mkdir(build)
        make = ["make", "-s", "-C", build, "-f", os.path.join(TOP, "bindings", "postgres", "Makefile")]
        subprocess.run([*make, "install", f"DESTDIR={self.room}"], check=True)
        self.data, self.log = os.path.join(self.room, "data"), os.path.join(self.room, "log")
        if os.getuid() == 0:
            for folder, _, _ in os.walk(self.room):
                os.chown(folder, NOBODY, NOBODY)
        self.run("initdb", "-D", self.data, "-U", "postgres", "-A", "trust", "-E", "UTF8", "--locale=C.UTF-8", "--no-sync")
        settings = {"listen_addresses": "''", "unix_socket_directories": f"'{self.room}'", "fsync": "off",
                    "shared_buffers": "32MB", "max_connections": "20", "restart_after_crash": "on", "logging_collector": "off"}
        with open(os.path.join(self.data, "postgresql.conf"), "a", encoding="ascii") as file:
            file.writelines(f"{name} = {value}\n" for name, value in settings.items())
        self.run("pg_ctl", "-D", self.data, "-l", self.log, "-w", "start")
        return self

    def __exit__(self, *_):
        self.run("pg_ctl", "-D", self.data, "-m", "immediate", "-w", "stop")
        shutil.rmtree(self.room)

    def run(self, program, *words):
        """Runs a program of the server, as a user who is not root."""
        as_nobody = {"user": NOBODY, "group": NOBODY, "extra_groups": []} if os.getuid() == 0 else {}
        done = subprocess.run([os.path.join(self.bins, program), *words], cwd=self.room, capture_output=True, text=True,
                              **as_nobody)
        if done.returncode:
            with open(self.log, encoding="utf-8") as file:
                print(file.read()[-2000:])
            sys.exit(f"{program}: {done.stdout}{done.stderr}")

    def client(self, program, base, *words, user="owner"):
        """The words of a client's command line."""
        return [os.path.join(self.bins, program), "-h", self.room, "-U", user, "-d", base, *words]

    def psql(self, script, base="roads", user="owner"):
        """What a script prints."""
        words = self.client("psql", base, "-XAtq", "-v", "ON_ERROR_STOP=1", "-f", "-", user=user)
        done = subprocess.run(words, input=script, capture_output=True, text=True)
        if done.returncode:
            raise RuntimeError(done.stderr)
        return done.stdout.rstrip("\n")

    def ask(self, queries, base="roads"):
        """The answer of each query, or what its error says."""
        lines = [f"SELECT coalesce(to_json(asked({quoted(query)}))::text, 'null');" for query in queries]
        return [json.loads(line) for line in self.psql("\n".join(lines), base).split("\n")]

    def is_up(self):
        return subprocess.run(self.client("pg_isready", "roads"), capture_output=True).returncode == 0
