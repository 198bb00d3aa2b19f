"""A program at a terminal of its own, for tools/prompt_checks. The terminal is a pty. It answers where its last cell
stands when it is asked, as terminals do, and nothing else."""
import fcntl
import os
import pty
import select
import signal
import struct
import tempfile
import termios
import time

ROOT = os.path.dirname(os.path.dirname(os.path.abspath(__file__)))
# The longest time that anything may take, in seconds.
LIMIT = 20
ASKED = b"\x1b[6n"
PASTE_START, PASTE_END = b"\x1b[200~", b"\x1b[201~"
MARKS_ON, MARKS_OFF = b"\x1b[?2004h", b"\x1b[?2004l"
SIZES_ON, SIZES_OFF = b"\x1b[?2048h", b"\x1b[?2048l"


class Differs(Exception):
    """What is not as it should be."""


def want(holds, what):
    """Ends the check where something does not hold."""
    if not holds:
        raise Differs(what)


def wait_for_state(process, state):
    """Waits until a process is in a state, as the kernel tells it."""
    until = time.monotonic() + LIMIT
    while True:
        with open(f"/proc/{process}/stat", encoding="utf-8") as file:
            found = file.read().rpartition(")")[2].split()[0]
        if found == state:
            return
        want(time.monotonic() < until, f"the process is in state {found}")
        time.sleep(0.02)


class Session:
    """A program at a terminal of its own, which `words` start."""

    def __init__(self, words, program, rows=24, cols=80, ready=b"> "):
        self.program, self.tells_errors = program, False
        self.master, self.slave = pty.openpty()
        self.shown, self.answered, self.size, self.status = b"", 0, (rows, cols), None
        self.room = tempfile.TemporaryDirectory()
        self.resize(rows, cols)
        self.modes = termios.tcgetattr(self.slave)
        self.child = os.fork()
        if self.child == 0:
            self.become(words)
        if ready:
            self.wait_for(ready)

    def become(self, words):
        """Becomes the program, in the forked process."""
        try:
            os.close(self.master)
            os.login_tty(self.slave) if hasattr(os, "login_tty") else self.login()
            os.environ.update(TMPDIR=self.room.name, TERM="xterm")
            for number in range(1, signal.NSIG):
                if number not in (signal.SIGKILL, signal.SIGSTOP) and not 32 <= number < 35:
                    signal.signal(number, signal.SIG_DFL)
            os.execv(words[0], words)
        finally:
            os._exit(126)

    def login(self):
        """Takes the terminal as this process's own."""
        os.setsid()
        fcntl.ioctl(self.slave, termios.TIOCSCTTY, 0)
        for descriptor in range(3):
            os.dup2(self.slave, descriptor)
        os.close(self.slave)

    def __enter__(self):
        return self

    def __exit__(self, *_how):
        for descriptor in (self.master, self.slave):
            if descriptor is not None:
                os.close(descriptor)
        if self.status is None:
            os.kill(self.child, signal.SIGKILL)
            os.waitpid(self.child, 0)
        self.room.cleanup()

    def resize(self, rows, cols):
        """Gives the terminal another size, which the kernel tells the processes at it."""
        self.size = rows, cols
        fcntl.ioctl(self.slave, termios.TIOCSWINSZ, struct.pack("HHHH", rows, cols, 0, 0))

    def type(self, keys):
        """Types bytes."""
        os.write(self.master, keys)

    def look(self, seconds):
        """Takes what is sent within this time, and answers where the terminal is asked for its size."""
        if not select.select([self.master], [], [], seconds)[0]:
            return
        self.shown += os.read(self.master, 65536)
        while self.shown.count(ASKED) > self.answered:
            self.answered += 1
            self.type(b"\x1b[%d;%dR" % self.size)

    def wait_for(self, text, since=0):
        """Waits until a text is shown after what was shown first."""
        until = time.monotonic() + LIMIT
        while text not in self.shown[since:]:
            want(time.monotonic() < until, f"{text} is not shown, but {self.shown[since:]}")
            # what was sent before the end is read first
            has_ended, length = self.has_ended(), len(self.shown)
            self.look(0.02)
            if has_ended and len(self.shown) == length:
                raise Differs(f"it ended with status {self.status}, and showed {self.shown[since:]}")

    def wait_for_size(self):
        """Waits until the size is asked for once more, and told."""
        until, answered = time.monotonic() + LIMIT, self.answered
        while self.answered == answered:
            want(time.monotonic() < until, "the size is not asked for")
            self.look(0.02)

    def has_ended(self):
        """Whether the script has ended. Then the status is known."""
        if self.status is None:
            ended, status = os.waitpid(self.child, os.WNOHANG)
            if ended:
                self.status = os.waitstatus_to_exitcode(status)
        return self.status is not None

    def end(self, status):
        """Waits for the end, and wants this status and all as it was before."""
        until = time.monotonic() + LIMIT
        while not self.has_ended():
            want(time.monotonic() < until, "it does not end")
            if self.master is not None:
                self.look(0.02)
        want(self.status == status, f"the status is {self.status}, and not {status}")
        want(os.listdir(self.room.name) == [], f"left behind: {os.listdir(self.room.name)}")
        want(not self.left(), f"the program goes on: {self.left()}")
        if self.master is None:
            return
        while select.select([self.master], [], [], 0)[0]:
            self.look(0)
        want(termios.tcgetattr(self.slave) == self.modes, "the modes of the terminal are not as before")
        if MARKS_ON in self.shown:
            want(self.shown.rfind(MARKS_OFF) > self.shown.rfind(MARKS_ON), "the marks of pastes stay")
            want(self.shown.rfind(SIZES_OFF) > self.shown.rfind(SIZES_ON), "the terminal goes on telling its size")
        want(self.tells_errors or b"Error" not in self.shown, f"an error is told: {self.shown[-100:]}")

    def left(self):
        """The processes of the program that run in this session of processes, and in no other."""
        running = []
        for name in os.listdir("/proc"):
            try:
                is_program = name.isdigit() and os.readlink(f"/proc/{name}/exe") == os.path.realpath(self.program)
                if is_program and os.getsid(int(name)) == self.child:
                    running.append(int(name))
            except OSError:
                continue
        return running
