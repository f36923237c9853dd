"""`pdcgw replay` where its input can't be read, its output not be written, or memory runs out: what came before, what it says, and its status."""
import os
import pty
import resource
import subprocess
import tty

from peers import PATIENCE, same

NOT_READ = "pdcgw: input can't be read; it has to be a file, a pipe or a terminal that is open\npdcgw: 39 ReadFault\n"
NOT_WRITTEN = "pdcgw: output can't be written; it has to be a file, a pipe or a terminal that takes it\npdcgw: 40 WriteFault\n"
NO_MEMORY = "pdcgw: out of memory; give this machine more, or let the setup need less\npdcgw: 1 NoMemory\n"


def replayed(bench, stdin, stdout=subprocess.PIPE, **keys):
    """The status, output and errors of `replay`."""
    done = subprocess.run([bench.program, "replay"], stdin=stdin, stdout=stdout, stderr=subprocess.PIPE, timeout=PATIENCE, **keys)
    return done.returncode, (done.stdout or b"").decode(), done.stderr.decode()


def script(bench, text):
    """A file with this text, open to be read."""
    file = f"{bench.folder}/script"
    with open(file, "wb") as f:
        f.write(text)
    return open(file, "rb")


def test_replay_of_an_input_that_can_not_be_read(bench):
    """A folder is no input. Where the input fails amid a line the lines before it are answered, and this line is not."""
    folder = os.open("/", os.O_RDONLY)
    same(replayed(bench, folder), (1, "", NOT_READ))
    os.close(folder)
    # A terminal whose other side has gone gives what was written, and then can't be read.
    inner, outer = pty.openpty()
    tty.setraw(outer)
    os.write(outer, b"drain 1 5\ndrain 2")
    os.close(outer)
    same(replayed(bench, inner), (1, "refused 26 NoSuchSub\n", NOT_READ))
    os.close(inner)


def test_replay_to_an_output_that_can_not_be_written(bench):
    """Standard output is full, or is a pipe that nobody reads."""
    reading, writing = os.pipe()
    os.close(reading)
    with open("/dev/full", "w") as full, os.fdopen(writing, "w") as pipe:
        for stdout in (full, pipe):
            with script(bench, b"drain 1 5\n") as lines:
                same(replayed(bench, lines, stdout), (1, "", NOT_WRITTEN))


def test_replay_of_a_line_beyond_its_memory(bench):
    """A line of 40 million bytes, where 30 million bytes of memory are there at most."""
    limit = 30_000_000
    with script(bench, b"#" * 40_000_000) as line:
        same(replayed(bench, line, preexec_fn=lambda: resource.setrlimit(resource.RLIMIT_AS, (limit, limit))), (1, "", NO_MEMORY))
