"""Commands that are stopped or killed at a moment: at a stop before or behind a system call, which a debugger sees, or
after some microseconds.

A command that is traced stops before and behind each of its system calls, and these stops are counted. Who begins a
traced command has to go on with it, in the same thread.
"""
import collections
import ctypes
import os
import resource
import signal
import subprocess
import sys
import time

TRACE_ME, NEXT_CALL, SET_OPTIONS = 0, 24, 0x4200
TELL_CALLS, KILL_WITH_TRACER = 1, 0x100000
CALL_STOP, EXEC_STOP = signal.SIGTRAP | 0x80, signal.SIGTRAP
SECONDS = 120

# What a command printed, on standard error too, and its exit status; that of a killed one is -9.
Ran = collections.namedtuple("Ran", "said status")

LIBC = ctypes.CDLL(None, use_errno=True)
LIBC.ptrace.argtypes = [ctypes.c_long, ctypes.c_long, ctypes.c_void_p, ctypes.c_void_p]
LIBC.ptrace.restype = ctypes.c_long


def trace(request, pid, data=0, place=0):
    if LIBC.ptrace(request, pid, place, data) < 0:
        raise OSError(ctypes.get_errno(), "ptrace")


def command_of(program, words):
    return [*([sys.executable, "-S", program] if program.endswith(".py") else [program]), *words]


def begun(program, words, folder, prepare=None):
    return subprocess.Popen(
        command_of(program, words),
        cwd=folder,
        stdin=subprocess.DEVNULL,
        stdout=subprocess.PIPE,
        stderr=subprocess.STDOUT,
        preexec_fn=prepare,
    )


def ended(process):
    """What a command did, once it and all of its children that print to the same pipe have ended."""
    try:
        said, _ = process.communicate(timeout=SECONDS)
    except subprocess.TimeoutExpired:
        process.kill()
        return Ran(process.communicate()[0], f"no end within {SECONDS} seconds")
    return Ran(said, process.returncode)


def run(program, words, folder, prepare=None):
    """Runs a command to its end."""
    return ended(begun(program, words, folder, prepare))


class Traced:
    """A command that is traced, and stands at its begin."""

    def __init__(self, program, words, folder):
        self.process = begun(program, words, folder, lambda: trace(TRACE_ME, 0))
        self.pid, self.stops, self.signal = self.process.pid, 0, 0
        if not self.is_stopped():
            raise OSError("the command isn't traced")
        trace(SET_OPTIONS, self.pid, TELL_CALLS | KILL_WITH_TRACER)

    def is_stopped(self):
        """Waits for the next stop or the end, and tells whether it is a stop."""
        _, state = os.waitpid(self.pid, 0)
        if os.WIFSTOPPED(state):
            # The stop of a program that takes the command's place is no signal to hand on.
            self.signal = os.WSTOPSIG(state) if os.WSTOPSIG(state) != EXEC_STOP else 0
            return True
        self.process.returncode = os.waitstatus_to_exitcode(state)
        return False

    def go(self, stops=None):
        """Goes on by so many stops, or to the end. Tells whether the command is still there."""
        while stops is None or stops > 0:
            trace(NEXT_CALL, self.pid, self.signal)
            if not self.is_stopped():
                return False
            if self.signal == CALL_STOP:
                self.stops, self.signal = self.stops + 1, 0
                stops = stops and stops - 1
        return True

    def is_there(self):
        return self.process.returncode is None

    def path_of(self, file):
        """What a number of an open file stands for."""
        try:
            return os.readlink(f"/proc/{self.pid}/fd/{file}")
        except OSError:
            return ""

    def has_open(self, path):
        return path in map(self.path_of, os.listdir(f"/proc/{self.pid}/fd"))

    def kill(self):
        """Kills it where it stands."""
        os.kill(self.pid, signal.SIGKILL)
        # Where it was gone already, this waits for nothing.
        while self.is_there() and self.is_stopped():
            pass

    def end(self):
        return ended(self.process)


def stops_of(program, words, folder):
    """How many stops a command has, and what it does."""
    traced = Traced(program, words, folder)
    traced.go()
    return traced.stops, traced.end()


def killed_at_stop(program, words, folder, stops):
    """Runs a command up to a stop and kills it there; one that has fewer stops ends."""
    traced = Traced(program, words, folder)
    if traced.go(stops):
        traced.kill()
    return traced.end()


def killed_after(program, words, folder, microseconds):
    """Runs a command and kills it after some time; one that takes less ends."""
    process = begun(program, words, folder)
    moment = time.monotonic() + microseconds / 1e6
    while time.monotonic() < moment and process.poll() is None:
        time.sleep(0 if microseconds < 2000 else 0.0002)
    process.kill()
    return ended(process)


def can_trace(folder):
    """Whether commands can be traced here."""
    try:
        return stops_of(sys.executable, ["-S", "-c", ""], folder)[0] > 0
    except (OSError, AttributeError, subprocess.SubprocessError):
        return False


def with_size_limit(size, is_told):
    """What has a command write no file beyond a size: it is told so, or else killed by a signal."""

    def prepare():
        signal.signal(signal.SIGXFSZ, signal.SIG_IGN if is_told else signal.SIG_DFL)
        resource.setrlimit(resource.RLIMIT_FSIZE, (size, size))

    return prepare
