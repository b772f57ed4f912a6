"""Input and output as they come: each case is a run of the built program with a stream that goes wrong or comes slowly, and
the status that it has to end with. bench/streams.sh has the usage."""
import os
import signal
import socket
import subprocess
import sys
import time

ONE = b"int main(){ int x = 3; x = x + 4; assert(x == 7); return 0; }"
REPORT = b"1:35: proved\nsummary: 1 proved, 0 found, 0 unknown\n"
TOO_LONG = b"refused: source longer than 65536 bytes\n"
SECONDS = 60


def ends(program, stdin, stdout=subprocess.PIPE, words=("check",), before=None, **more):
    """The status of a run, a signal's as its negative number, and what it printed where that is a pipe of ours."""
    it = subprocess.Popen([program, *words], stdin=stdin, stdout=stdout, stderr=subprocess.DEVNULL, preexec_fn=before, **more)
    return it


def finished(it):
    try:
        out, _ = it.communicate(timeout=SECONDS)
        return it.returncode, out
    except subprocess.TimeoutExpired:
        it.kill()
        return "none in time", b""


def closed_input(program):
    return finished(ends(program, None, before=lambda: os.close(0)))


def folder(program):
    place = os.open("/", os.O_RDONLY)
    return finished(ends(program, place))


def endless(program, *words):
    with open("/dev/zero", "rb") as it:
        return finished(ends(program, it, words=words or ("check",)))


def endless_blanks(program):
    it = ends(program, subprocess.PIPE)
    try:
        while True:
            it.stdin.write(b" " * 4096)
            it.stdin.flush()
    except BrokenPipeError:
        pass
    it.stdin = None
    return finished(it)


def full_disk(program):
    with open("/dev/full", "wb") as out, open("/dev/null", "rb"):
        it = ends(program, subprocess.PIPE, out)
        it.stdin.write(ONE)
        it.stdin.close()
        it.stdin = None
        return finished(it)


def closed_output(program):
    it = ends(program, subprocess.PIPE, None, before=lambda: os.close(1))
    it.stdin.write(ONE)
    it.stdin.close()
    it.stdin = None
    return finished(it)


def reader_gone(program):
    """The signal of a broken pipe is not ignored by whoever starts the program; none may end it without a status."""
    read, write = os.pipe()
    os.close(read)
    it = ends(program, subprocess.PIPE, write, before=lambda: signal.signal(signal.SIGPIPE, signal.SIG_DFL))
    os.close(write)
    it.stdin.write(ONE)
    it.stdin.close()
    it.stdin = None
    return finished(it)


def single_bytes(program):
    it = ends(program, subprocess.PIPE)
    for byte in ONE:
        it.stdin.write(bytes([byte]))
        it.stdin.flush()
        time.sleep(0.005)
    it.stdin.close()
    it.stdin = None
    return finished(it)


def interrupted(program):
    """Each second call of read and write is interrupted by a signal, and made again: bench/interrupt.c."""
    it = ends(program, subprocess.PIPE, env={**os.environ, "LD_PRELOAD": os.environ["INTERRUPT"]})
    it.stdin.write(ONE)
    it.stdin.close()
    it.stdin = None
    return finished(it)


def stopped(program):
    """Stopped and continued while a read waits, as a shell's Ctrl-Z does."""
    it = ends(program, subprocess.PIPE)
    for part in (ONE[:20], ONE[20:40], ONE[40:]):
        time.sleep(0.1)
        os.kill(it.pid, signal.SIGSTOP)
        time.sleep(0.05)
        os.kill(it.pid, signal.SIGCONT)
        it.stdin.write(part)
        it.stdin.flush()
    it.stdin.close()
    it.stdin = None
    return finished(it)


def slow_reader(program):
    """A pipe whose reader takes single bytes loses none."""
    it = ends(program, subprocess.PIPE)
    it.stdin.write(ONE)
    it.stdin.close()
    it.stdin = None
    out = b""
    while byte := os.read(it.stdout.fileno(), 1):
        out += byte
        time.sleep(0.002)
    return it.wait(SECONDS), out


def reset_input(program):
    """A connection that the other side resets: a read that fails in mid-stream."""
    listener = socket.create_server(("127.0.0.1", 0))
    client = socket.create_connection(listener.getsockname())
    server, _ = listener.accept()
    client.sendall(ONE[:30])
    it = ends(program, server.fileno())
    time.sleep(0.2)
    client.setsockopt(socket.SOL_SOCKET, socket.SO_LINGER, b"\1\0\0\0\0\0\0\0")
    client.close()
    server.close()
    listener.close()
    return finished(it)


CASES = [
    ("a closed input", closed_input, 5, b""),
    ("a folder as input", folder, 5, b""),
    ("a connection that is reset", reset_input, 5, b""),
    ("an endless source", endless, 3, TOO_LONG),
    ("an endless source of blanks", endless_blanks, 3, TOO_LONG),
    ("an endless source of a bundle", lambda it: endless(it, "bundle", "1"), 3, TOO_LONG),
    ("an endless bundle", lambda it: endless(it, "recheck"), 3, b"refused: bundle longer than 16777216 bytes\n"),
    ("an endless source of a sweep", lambda it: endless(it, "sweep"), 3, TOO_LONG),
    ("endless sources of an edit", lambda it: endless(it, "edit", "65536"), 3, TOO_LONG),
    ("a full disk", full_disk, 6, None),
    ("a closed output", closed_output, 6, None),
    ("a pipe whose reader is gone", reader_gone, 6, None),
    ("input in single bytes", single_bytes, 0, REPORT),
    ("a reader of single bytes", slow_reader, 0, REPORT),
    ("stopped and continued while it reads", stopped, 0, REPORT),
    ("calls that a signal interrupts", interrupted, 0, REPORT),
]


def main(program):
    missed = 0
    for name, case, status, out in CASES:
        got = case(program)
        right = got[0] == status and (out is None or got[1] == out)
        missed += not right
        print(f"{name}: status {got[0]}" + ("" if right else f", {got[1]!r}; MISSED: status {status}, {out!r}"), flush=True)
    print(f"streams: {len(CASES) - missed} passed, {missed} failed")
    return 1 if missed else 0


if __name__ == "__main__":
    sys.exit(main(os.path.realpath(sys.argv[1])))
