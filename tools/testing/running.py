"""Runs commands in process groups, with a time limit, and ends them all on request."""

import os
import signal
import subprocess
import tempfile
import threading
import time

# In seconds after SIGTERM.
GRACE = 5
PLAIN = {"PATH": "/usr/bin:/bin"}

started = set()
guard = threading.Lock()
is_stopped = threading.Event()


class Stopped(Exception):
    """The run is being ended."""


class Ran:
    """Status (None after the time limit), output, error output, CPU seconds."""

    def __init__(self, status, out, err, seconds):
        self.status, self.out, self.err, self.seconds = status, out, err, seconds

    def text(self):
        return (self.out + self.err).decode(errors="replace")

    def failure(self, limit):
        if self.status is None:
            return f"not finished after {limit} s, killed"
        if self.status < 0:
            return f"killed by signal {-self.status} ({signal.Signals(-self.status).name})"
        return f"exit status {self.status}" if self.status else None


def kill(pid, by=signal.SIGKILL):
    """Kills a process group, whose first process may have ended."""
    try:
        os.killpg(pid, by)
    except ProcessLookupError:
        pass


def stop():
    is_stopped.set()
    # (one that is `tools/test` itself ends its commands when it gets SIGTERM)
    for by in (signal.SIGTERM, signal.SIGKILL):
        with guard:
            for pid in started:
                kill(pid, by)
        clock = Clock()
        while started and clock.seconds() < GRACE:
            time.sleep(0.01)


def start(words, out, err, given, cwd, env):
    with guard:
        if is_stopped.is_set():
            raise Stopped
        how = {"cwd": cwd, "env": env, "stdin": given, "stdout": out, "stderr": err}
        child = subprocess.Popen([str(it) for it in words], start_new_session=True, **how)
        started.add(child.pid)
        return child


def finish(child, limit):
    """Returns the status, or None after the limit, and the CPU seconds."""
    late = threading.Event()

    def end():
        late.set()
        kill(child.pid)

    timer = threading.Timer(limit, end)
    timer.daemon = True
    timer.start()
    _, status, used = os.wait4(child.pid, 0)
    timer.cancel()
    with guard:
        started.discard(child.pid)
        # what the command has left running
        kill(child.pid)
    child.returncode = -os.WTERMSIG(status) if os.WIFSIGNALED(status) else os.WEXITSTATUS(status)
    if is_stopped.is_set():
        raise Stopped
    return None if late.is_set() else child.returncode, used.ru_utime + used.ru_stime


def run(words, limit, cwd, given=None, env=None):
    """`given` is a file for standard input."""
    with tempfile.TemporaryFile() as out, tempfile.TemporaryFile() as err:
        with open(given or os.devnull, "rb") as source:
            child = start(words, out, err, source, cwd, env)
        status, seconds = finish(child, limit)
        out.seek(0)
        err.seek(0)
        return Ran(status, out.read(), err.read(), seconds)


class Clock:
    def __init__(self):
        self.began = time.monotonic()

    def seconds(self):
        return time.monotonic() - self.began
