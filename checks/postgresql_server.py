"""A PostgreSQL server in a temporary folder, on a socket there, which is stopped and removed whatever happens."""

import contextlib
import glob
import os
import pathlib
import pwd
import shutil
import signal
import subprocess
import sys
import tempfile

SETTINGS = {
    "track_commit_timestamp": "on",
    "fsync": "off",
    "autovacuum": "off",
    "max_connections": "40",
    "wal_level": "logical",
    "deadlock_timeout": "20ms",
    "max_prepared_transactions": "4",
    "listen_addresses": "''",
}


def tools():
    """The folder of initdb and pg_ctl, or None."""
    on_path = shutil.which("initdb")
    folders = sorted(glob.glob("/usr/lib/postgresql/*/bin"), key=lambda path: float(path.split("/")[4]))
    candidates = folders[::-1] + ([os.path.dirname(os.path.realpath(on_path))] if on_path else [])
    return next((folder for folder in candidates if os.access(os.path.join(folder, "initdb"), os.X_OK)), None)


def _owner():
    """Returns the user to run the server: root may not, so then the user `postgres` or `nobody`."""
    if os.geteuid():
        return {}
    for name in ("postgres", "nobody"):
        with contextlib.suppress(KeyError):
            user = pwd.getpwnam(name)
            return {"user": user.pw_uid, "group": user.pw_gid, "extra_groups": []}
    raise SystemExit("not so: root may not run PostgreSQL, and there is no user postgres or nobody")


def _ended_by_signal(number, _):
    raise SystemExit(128 + number)


class Dsn(str):
    """The connection parameters of a server; `restart` stops it as a crash does, and starts it."""

    restart = None


@contextlib.contextmanager
def server():
    """Starts a server, and yields its connection parameters for libpq."""
    folder = pathlib.Path(tempfile.mkdtemp(prefix="esr-pg-", dir="/tmp"))
    for number in (signal.SIGTERM, signal.SIGHUP):
        signal.signal(number, _ended_by_signal)
    owner, bin_folder = _owner(), tools()
    data, log = folder / "data", folder / "log"

    def run(tool, *words):
        done = subprocess.run(
            [os.path.join(bin_folder, tool), "-D", str(data), *words],
            cwd=folder,
            stdin=subprocess.DEVNULL,
            stdout=subprocess.PIPE,
            stderr=subprocess.STDOUT,
            check=False,
            **owner,
        )
        if done.returncode:
            said = log.read_text() if log.exists() else ""
            raise SystemExit(f"not so: {tool} ended with {done.returncode}: {done.stdout.decode()}{said}")

    try:
        if owner:
            os.chown(folder, owner["user"], owner["group"])
        run("initdb", "--auth=trust", "--username=esr", "--no-sync", "--encoding=UTF8", "--locale=C")
        words = " ".join(f"-c {name}={value}" for name, value in SETTINGS.items())
        try:
            options = ("-w", "-l", str(log), "-o", f"-k {folder} {words}")
            run("pg_ctl", "start", *options)
            dsn = Dsn(f"host={folder} user=esr dbname=postgres")
            dsn.restart = lambda: run("pg_ctl", "restart", "-m", "immediate", *options)
            yield dsn
        finally:
            if (data / "postmaster.pid").exists():
                run("pg_ctl", "stop", "-w", "-m", "immediate")
    finally:
        shutil.rmtree(folder, ignore_errors=True)


if __name__ == "__main__":
    # Starts a server for trials by hand: until a line or the end of the input.
    with server() as words:
        print(words, flush=True)
        sys.stdin.readline()
