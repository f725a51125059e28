"""The host program under test, named as the first word, with a scratch folder that it runs in."""
import contextlib
import os
import pathlib
import pty
import select
import subprocess
import sys
import tempfile
import threading

from cases import has, same

PROGRAM = pathlib.Path(sys.argv[1]).resolve()
ROOT = pathlib.Path(__file__).resolve().parent.parent.parent
EXAMPLES = ROOT / "examples"
GYM = EXAMPLES / "gym"
SCRATCH = tempfile.TemporaryDirectory()
FOLDER = pathlib.Path(SCRATCH.name)
SYNTAX = "no JSON text goes on like this"
ENDS = "the text ends where JSON has to go on"
FORM_SYNTAX = "no shape or reader goes on like this"
PACK_WANTS = '(pack "name" R ...) wants a name in plain quotes here that it does not have yet, or its )'
# seconds after which a program that goes on is taken to hang
PATIENCE = 60
TOO_LARGE = "the shape to be written has over 512 forms, 32 levels or 16,384 bytes"


def run(*words, given=b"", **more):
    """Status, standard output and standard error of the program, run in the scratch folder."""
    done = subprocess.run([PROGRAM, *words], input=given, capture_output=True, cwd=FOLDER, **more)
    return done.returncode, done.stdout, done.stderr


def file_of(content, name="record.json"):
    (FOLDER / name).write_bytes(content)
    return name


def lines_of(said):
    return said.decode("utf-8", "surrogateescape").split("\n")


def refused_with(words, lines, out=b"", **more):
    """Status 1, these lines on standard error, and the output, which is empty where no sample was left out."""
    status, written, said = run(*words, **more)
    same((status, written, lines_of(said)), (1, out, lines + [""]))


def complains(words, *parts, **more):
    """Status 2, nothing on standard output, and these parts in what is said."""
    status, out, said = run(*words, **more)
    same((status, out), (2, b""))
    for part in parts:
        has(part, said.decode())


def status_and_words_on(target, *words):
    """Status and standard error where a shell sends standard output, or another file, elsewhere."""
    done = subprocess.run(["sh", "-c", f'exec "$@" {target}', "sh", PROGRAM, *words], stderr=subprocess.PIPE, cwd=FOLDER)
    return done.returncode, done.stderr.decode()


class Terminal:
    """The end of a terminal that a person looks at."""

    def __init__(self, master):
        self.master, self.sent = master, b""

    def read(self):
        """Whether more has come; not where nobody has the other end any more."""
        if not select.select([self.master], [], [], PATIENCE)[0]:
            raise AssertionError(f"a terminal waits for more than {self.sent!r}")
        try:
            part = os.read(self.master, 65536)
        except OSError:
            part = b""
        self.sent += part
        return part != b""

    def wait_for(self, part):
        while part not in self.sent:
            if not self.read():
                raise AssertionError(f"\n  no {part!r}\n  in {self.sent!r}")

    def wait_for_end(self):
        while self.read():
            pass


@contextlib.contextmanager
def started(*words, **streams):
    """The program with pipes, where no other stream is given. It is ended where it takes too long, so that a test fails."""
    pipes = {"stdin": subprocess.PIPE, "stdout": subprocess.PIPE, "stderr": subprocess.PIPE, **streams}
    with subprocess.Popen([PROGRAM, *words], cwd=FOLDER, **pipes) as program:
        clock = threading.Timer(PATIENCE, program.kill)
        clock.start()
        try:
            yield program
        finally:
            clock.cancel()


def run_at_terminal(*words, on=("stdout",), feed=None):
    """Status, what the terminal got on these outputs, and what came on the other one; feed is handed the terminal meanwhile."""
    master, slave = pty.openpty()
    terminal = Terminal(master)
    with started(*words, **dict.fromkeys(on, slave)) as program:
        os.close(slave)
        program.stdin.close()
        if feed is not None:
            feed(terminal)
        terminal.wait_for_end()
        other = b"".join(stream.read() for stream in (program.stdout, program.stderr) if stream is not None)
    os.close(master)
    return program.returncode, terminal.sent, other
