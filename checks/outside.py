#!/usr/bin/env python3
"""Tries the built nngcat from outside: peers written here, and Debian's nngcat where it is installed.

Most checks go over each transport that OVER names, of tcp and ipc. Skips what is missing. Each check prints a line for
each transport; the status is the number of lines that failed.
"""
import atexit
import contextlib
import itertools
import os
import select
import shutil
import socket
import stat
import subprocess
import sys
import tempfile
import threading
import time

HERE = os.path.dirname(os.path.abspath(__file__))
OURS = os.environ.get("OURS", os.path.join(HERE, "..", "crates", "nngcat", "out", "nngcat"))
THEIRS = shutil.which("nngcat")
LINKS = int(os.environ.get("LINKS", "100000"))
MESSAGES = int(os.environ.get("MESSAGES", "1000000"))
PUSHED = int(os.environ.get("PUSHED", "100000"))
OVER = os.environ.get("OVER", "tcp ipc").split()

PAIR, PAIR1 = 0x10, 0x11
PUSH, PULL = 0x50, 0x51
REQ, REP = 0x30, 0x31
SURVEYOR, RESPONDENT = 0x62, 0x63
PUB, SUB, BUS = 0x20, 0x21, 0x70
# What comes before each body that a pair of version 1 sends: a hop count of 1.
HOP = b"\0\0\0\1"


class Transport:
    """Over what the checks go now: tcp, ipc or ws. Over IPC a port is the number of a file, which stands in `folder`.
    Over WebSocket both sides are programs or the library: the peers that are written here don't speak it."""
    now = "tcp"
    folder = None
    numbers = itertools.count(1)


def is_ipc():
    return Transport.now == "ipc"


def path(port):
    if Transport.folder is None:
        Transport.folder = tempfile.mkdtemp(prefix="nngcat-")
        atexit.register(shutil.rmtree, Transport.folder, True)
    return os.path.join(Transport.folder, str(port))


def address(port):
    if is_ipc():
        return f"ipc://{path(port)}"
    return f"ws://127.0.0.1:{port}/x" if Transport.now == "ws" else f"tcp://127.0.0.1:{port}"


def unconnected():
    return socket.socket(socket.AF_UNIX if is_ipc() else socket.AF_INET)


def place(port):
    """What `bind` and `connect` of a socket take."""
    return path(port) if is_ipc() else ("127.0.0.1", port)


def free_port():
    if is_ipc():
        return next(Transport.numbers)
    with socket.socket() as s:
        s.bind(("127.0.0.1", 0))
        return s.getsockname()[1]


@contextlib.contextmanager
def listener_at(port, waiting=8):
    """A socket that listens there. Over IPC its file is removed at the end."""
    with unconnected() as listener:
        listener.setsockopt(socket.SOL_SOCKET, socket.SO_REUSEADDR, 1)
        listener.bind(place(port))
        listener.listen(waiting)
        try:
            yield listener
        finally:
            if is_ipc():
                os.unlink(path(port))


def greeting(role):
    return b"\0SP\0\0" + bytes([role]) + b"\0\0"


def head(size):
    """What comes before a body of this size."""
    return (b"\1" if is_ipc() else b"") + size.to_bytes(8, "big")


def frame(body):
    return head(len(body)) + body


def connect(port, tries=200):
    for _ in range(tries):
        peer = unconnected()
        try:
            peer.connect(place(port))
            return peer
        except OSError:
            peer.close()
            time.sleep(0.02)
    raise OSError("nobody listens")


def read_all(peer, size):
    """The next `size` bytes of the peer, or fewer where it ends before."""
    came = b""
    while len(came) < size:
        piece = peer.recv(size - len(came))
        if not piece:
            break
        came += piece
    return came


def closed(peer):
    """Closes this side once the program has closed its own, which otherwise waits for it."""
    try:
        while peer.recv(1 << 16):
            pass
    except OSError:
        pass
    peer.close()


def next_body(came):
    """The body of the next frame of a file of bytes; None where it ends, or where the frame begins otherwise."""
    first = came.read(len(head(0)))
    if len(first) < len(head(0)) or first[:-8] != head(0)[:-8]:
        return None
    return came.read(int.from_bytes(first[-8:], "big"))


BEGUN = []


def begin(program, *words, **more):
    run = subprocess.Popen([program, *words], stdout=subprocess.PIPE, stderr=subprocess.PIPE, **more)
    BEGUN.append(run)
    return run


def start(*words, **more):
    return begin(OURS, *words, **more)


def stop(*runs):
    for run in runs:
        run.kill()
        run.communicate(timeout=60)


def reads(run, wanted, seconds=20):
    """Returns whether a run that goes on prints `wanted` next, within `seconds`."""
    came, until = b"", time.time() + seconds
    while len(came) < len(wanted):
        ready, _, _ = select.select([run.stdout], [], [], max(0, until - time.time()))
        piece = os.read(run.stdout.fileno(), len(wanted) - len(came)) if ready else b""
        if not piece:
            break
        came += piece
    return came == wanted


def stop_all():
    """Stops what a check that failed left behind."""
    stop(*(run for run in BEGUN if run.returncode is None))
    BEGUN.clear()


def is_listened_at(file):
    """Returns whether a Unix socket listens at this path."""
    with open("/proc/net/unix") as table:
        rows = [line.split() for line in table]
    return any(row[3] == "00010000" and row[7:] == [file] for row in rows)


def wait_for(port, tries=200):
    """Waits until somebody listens there. Over IPC without a connection: Debian's listener takes no further one after
    one that ends before its greeting."""
    if not is_ipc():
        connect(port).close()
        return
    for _ in range(tries):
        if is_listened_at(path(port)):
            return
        time.sleep(0.02)
    raise OSError("nobody listens")


def listening(program, port, *words):
    """A run that listens at the port, once it does."""
    run = begin(program, *words, "--listen", address(port))
    wait_for(port)
    return run


def said(runs):
    """What each of the runs that end by themselves prints, without the line feed at its end, and that all went well."""
    outs = [run.communicate(timeout=60)[0].rstrip(b"\n") for run in runs]
    return outs, all(run.returncode == 0 for run in runs)


def memory(run):
    """The memory of a run that is in use, in KiB."""
    with open(f"/proc/{run.pid}/status") as lines:
        return next(int(line.split()[1]) for line in lines if line.startswith("VmRSS"))


def many_links():
    """LINKS links that come and go leave no trace: then a message is printed, with status 0, and the memory in use grew by
    at most 1 MiB."""
    port = free_port()
    run = start("--pull", "--listen", address(port), "--ascii", "--count", "1")
    held = connect(port)
    held.sendall(greeting(PUSH))
    time.sleep(1)
    before = memory(run)
    begun = time.time()
    for _ in range(LINKS):
        connect(port).close()
    took = time.time() - begun
    time.sleep(1)
    grown = memory(run) - before
    held.sendall(frame(b"last"))
    out, err = run.communicate(timeout=120)
    held.close()
    right = out == b"last\n" and run.returncode == 0 and grown <= 1024
    return right, f"{LINKS} links in {took:.0f} s, status {run.returncode} {err!r}, {before} KiB and {grown} more"


def many_messages():
    """A pull prints MESSAGES messages whole and in order."""
    port = free_port()
    run = start("--pull", "--listen", address(port), "--raw", "--count", str(MESSAGES))
    peer = connect(port)
    peer.sendall(greeting(PUSH))
    begun = time.time()
    pid = os.fork()
    if pid == 0:
        for first in range(0, MESSAGES, 1000):
            peer.sendall(b"".join(frame(b"%015d\n" % n) for n in range(first, min(first + 1000, MESSAGES))))
        os._exit(0)
    out, err = run.communicate(timeout=300)
    os.waitpid(pid, 0)
    peer.close()
    took = time.time() - begun
    right = out == b"".join(b"%015d\n" % n for n in range(MESSAGES))
    return right and run.returncode == 0, f"{MESSAGES} messages in {took:.1f} s, status {run.returncode} {err!r}"


def many_pushed():
    """A push sends PUSHED messages whole to a peer that reads all."""
    port = free_port()
    body = b"0123456789abcdef"
    run = start("--push", "--listen", address(port), "--data", body.decode(), "--count", str(PUSHED))
    want = greeting(PUSH) + frame(body) * PUSHED
    with connect(port) as peer:
        peer.settimeout(60)
        peer.sendall(greeting(PULL))
        parts, came = [], 0
        while came < len(want) and (piece := peer.recv(1 << 20)):
            parts.append(piece)
            came += len(piece)
    _, err = run.communicate(timeout=60)
    right = b"".join(parts) == want
    return right and run.returncode == 0, f"{PUSHED} messages, {came} of {len(want)} bytes, status {run.returncode} {err!r}"


def many_between(pusher, puller, puller_listens):
    """Returns whether PUSHED messages that one pushes are printed by the other, by the number of bytes: all have one body."""
    port = free_port()
    body = b"0123456789abcdef"
    push = ("--push", "--data", body.decode(), "--count", str(PUSHED), "--interval", "0")
    pull = ("--pull", "--raw", "--count", str(PUSHED))
    server, dialer = ((puller, pull), (pusher, push)) if puller_listens else ((pusher, push), (puller, pull))
    runs = [listening(server[0], port, *server[1]), begin(dialer[0], *dialer[1], "--dial", address(port))]
    taker, sender = runs if puller_listens else reversed(runs)
    out, _ = taker.communicate(timeout=120)
    well = said([sender]) == ([b""], True) and taker.returncode == 0
    return well and out == body * PUSHED, len(out)


def many_with_theirs():
    """PUSHED messages from our push to Debian's pull, and from Debian's push to ours, each side listening in turn."""
    tried = [many_between(*pair, listens) for pair in ((OURS, THEIRS), (THEIRS, OURS)) for listens in (False, True)]
    return all(well for well, _ in tried), f"{PUSHED} messages of 16 bytes, {[size for _, size in tried]} bytes"


# Counts how often memory is taken, in a file that others can read meanwhile.
COUNTER = r"""
#include <fcntl.h>
#include <stdint.h>
#include <stdlib.h>
#include <sys/mman.h>

extern void *__libc_malloc(size_t);
extern void *__libc_calloc(size_t, size_t);
extern void *__libc_realloc(void *, size_t);
extern void *__libc_memalign(size_t, size_t);

static uint64_t own;
static uint64_t *count = &own;

__attribute__((constructor)) static void begin(void) {
    void *kept = mmap(0, sizeof own, PROT_READ | PROT_WRITE, MAP_SHARED, open(getenv("COUNT"), O_RDWR), 0);
    if (kept != MAP_FAILED)
        count = kept;
}

static void one(void) { __atomic_fetch_add(count, 1, __ATOMIC_SEQ_CST); }
void *malloc(size_t n) { one(); return __libc_malloc(n); }
void *calloc(size_t n, size_t size) { one(); return __libc_calloc(n, size); }
void *realloc(void *at, size_t n) { one(); return __libc_realloc(at, n); }
void *aligned_alloc(size_t to, size_t n) { one(); return __libc_memalign(to, n); }
void *memalign(size_t to, size_t n) { one(); return __libc_memalign(to, n); }
int posix_memalign(void **at, size_t to, size_t n) { one(); *at = __libc_memalign(to, n); return *at ? 0 : 12; }
"""


def count_allocations(folder):
    """The environment of a run whose allocations are counted, and the file with the count; none where no C is compiled."""
    source, library, kept = (os.path.join(folder, name) for name in ("counter.c", "counter.so", "count"))
    with open(source, "w") as file:
        file.write(COUNTER)
    with open(kept, "wb") as file:
        file.write(bytes(8))
    built = subprocess.run(["gcc", "-shared", "-fPIC", "-fno-builtin", "-o", library, source], stderr=subprocess.DEVNULL)
    return None if built.returncode else ({**os.environ, "LD_PRELOAD": library, "COUNT": kept}, kept)


def counted(run, kept):
    """How often a run took memory so far, and how often it rested."""
    with open(kept, "rb") as file, open(f"/proc/{run.pid}/status") as lines:
        rests = next(int(line.split()[1]) for line in lines if line.startswith("voluntary_ctxt_switches"))
        return int.from_bytes(file.read(), sys.byteorder), rests


def idle_rounds_allocate_nothing():
    """Rounds over 50 links that bring nothing take no memory: it is taken no more often after many more of them."""
    if not shutil.which("gcc"):
        return True, "skipped, no gcc"
    with tempfile.TemporaryDirectory() as folder:
        counting = count_allocations(folder)
        if counting is None:
            return True, "skipped, no C is compiled"
        env, kept = counting
        port = free_port()
        run = start("--pull", "--listen", address(port), "--ascii", "--count", "1", env=env)
        peers = [connect(port) for _ in range(50)]
        for peer in peers:
            peer.sendall(greeting(PUSH))
        time.sleep(2)
        first, rests = counted(run, kept)
        time.sleep(3)
        second, more = counted(run, kept)
        peers[25].sendall(frame(b"last"))
        outs, well = said([run])
        with open(kept, "rb") as file:
            last = int.from_bytes(file.read(), sys.byteorder)
        for peer in peers:
            peer.close()
    right = well and outs == [b"last"] and 0 < first == second < last and more - rests >= 50
    return right, f"{first} allocations, after {more - rests} rests {second}, after a message {last}; {outs}"


def slow_reader():
    """An output that is full and doesn't wait is no fault: all comes once it is read."""
    port = free_port()
    reader, writer = os.pipe()
    os.set_blocking(writer, False)
    run = subprocess.Popen([OURS, "--pull", "--listen", address(port), "--raw", "--count", "40"],
                           stdout=writer, stderr=subprocess.PIPE)
    os.close(writer)
    peer = connect(port)
    body = bytes(range(250)) * 40
    text = greeting(PUSH) + frame(body) * 40
    sending = threading.Thread(target=peer.sendall, args=(text,), daemon=True)
    sending.start()
    time.sleep(1)
    parts = []
    while True:
        piece = os.read(reader, 65536)
        if not piece:
            break
        parts.append(piece)
    run.wait(timeout=60)
    sending.join(timeout=60)
    peer.close()
    os.close(reader)
    return b"".join(parts) == body * 40 and run.returncode == 0, f"status {run.returncode}"


def broken_peers():
    """A peer that dies within a message, one that never greets, one of another role: others are served."""
    port = free_port()
    run = start("--pull", "--listen", address(port), "--ascii", "--count", "1")
    silent = connect(port)
    dying = connect(port)
    dying.sendall(greeting(PUSH) + head(9) + b"abc")
    dying.close()
    other = connect(port)
    other.sendall(greeting(0x30))
    peer = connect(port)
    peer.sendall(greeting(PUSH) + frame(b"hello"))
    out, _ = run.communicate(timeout=60)
    for s in (silent, other, peer):
        s.close()
    return out == b"hello\n" and run.returncode == 0, f"{out!r}, status {run.returncode}"


def theirs_to_ours():
    """Debian's nngcat pushes to our pull."""
    port = free_port()
    run = start("--pull", "--listen", address(port), "--ascii", "--count", "1")
    connect(port).close()
    subprocess.run([THEIRS, "--push", "--dial", address(port), "--data", "hello"], timeout=60)
    out, _ = run.communicate(timeout=60)
    return out == b"hello\n" and run.returncode == 0, f"{out!r}, status {run.returncode}"


def theirs_pulls_from_ours():
    """Debian's pull dials our push."""
    port = free_port()
    run = listening(OURS, port, "--push", "--data", "hello")
    pull = begin(THEIRS, "--pull", "--dial", address(port), "--ascii", "--count", "1")
    outs, well = said([pull, run])
    return well and outs == [b"hello", b""], f"{outs}, status {run.returncode}"


def ours_to_theirs():
    """Our push dials Debian's pull."""
    port = free_port()
    pull = subprocess.Popen([THEIRS, "--pull", "--listen", address(port), "--ascii", "--count", "1"],
                            stdout=subprocess.PIPE)
    run = start("--push", "--dial", address(port), "--data", "hello", "--count", "1")
    out, _ = pull.communicate(timeout=60)
    run.communicate(timeout=60)
    return out.strip() == b"hello" and run.returncode == 0, f"{out!r}, status {run.returncode}"


def slow_peer():
    """A peer that reads slowly gets all that was pushed."""
    port = free_port()
    body = "x" * 60000
    run = start("--push", "--listen", address(port), "--data", body, "--count", "50")
    peer = connect(port)
    peer.sendall(greeting(PULL))
    wanted = len(greeting(PUSH)) + 50 * len(frame(body.encode()))
    parts, came = [], 0
    while came < wanted:
        time.sleep(0.002)
        piece = peer.recv(50000)
        if not piece:
            break
        parts.append(piece)
        came += len(piece)
    run.communicate(timeout=60)
    peer.close()
    right = b"".join(parts) == greeting(PUSH) + frame(body.encode()) * 50
    return right and run.returncode == 0, f"{came} of {wanted} bytes, status {run.returncode}"


def longest_message():
    """A message of 1,048,576 bytes is printed whole; one of one byte more ends its link, and the next one is served."""
    port = free_port()
    run = start("--pull", "--listen", address(port), "--raw", "--count", "2")
    longest = bytes(range(256)) * 4096
    with connect(port) as peer:
        peer.settimeout(20)
        peer.sendall(greeting(PUSH) + frame(longest))
        greeted = read_all(peer, 8) == greeting(PULL) and reads(run, longest)
        peer.sendall(head(len(longest) + 1))
        try:
            ended = peer.recv(1) == b""
        except ConnectionResetError:
            ended = True
    with connect(port) as peer:
        peer.sendall(greeting(PUSH) + frame(b"next"))
        outs, well = said([run])
    return well and greeted and ended and outs == [b"next"], f"printed: {greeted}, ended: {ended}, then {outs}"


def full_output():
    """A standard output that takes nothing ends a run with status 5 at the first message."""
    if not os.path.exists("/dev/full"):
        return True, "skipped, no /dev/full"
    port = free_port()
    with open("/dev/full", "wb") as full:
        run = subprocess.Popen([OURS, "--pull", "--listen", address(port), "--ascii"], stdout=full, stderr=subprocess.PIPE)
    with connect(port) as peer:
        peer.sendall(greeting(PUSH) + frame(b"hello"))
        _, err = run.communicate(timeout=60)
    right = run.returncode == 5 and err.startswith(b"nngcat: output fault\nnngcat: no storage space\n")
    return right, f"status {run.returncode} {err!r}"


def ends_after(seconds, pause, take):
    """A push sends 1,000,000 bytes again and again, and its send times out after a second. Its peer reads `take` bytes each
    `pause` seconds, for `seconds`. Returns whether it ended before the peer stopped, its status, and how long after."""
    port = free_port()
    with tempfile.NamedTemporaryFile() as data:
        data.write(b"x" * 1_000_000)
        data.flush()
        run = start("--push", "--listen", address(port), "--file", data.name, "--count", "0", "--send-timeout", "1")
        peer = connect(port)
        peer.sendall(greeting(PULL))
        begun = time.time()
        while time.time() - begun < seconds and run.poll() is None:
            time.sleep(pause)
            if take:
                peer.recv(take)
        early, stopped = run.poll() is not None, time.time()
        status = run.wait(timeout=20)
        peer.close()
    return early, status, time.time() - stopped


def send_times_out():
    """A send timeout ends a push at a peer that reads nothing, after the timeout and as long again; while a peer takes
    some of a message now and then the push goes on, and ends once it has stopped; one that reads all sees no timeout."""
    silent = ends_after(0, 0.1, 0)
    slow = ends_after(6, 0.4, 200_000)
    port = free_port()
    run = start("--push", "--listen", address(port), "--data", "x" * 100_000, "--count", "50", "--send-timeout", "1")
    peer = connect(port)
    peer.sendall(greeting(PULL))
    wanted = 8 + 50 * len(frame(bytes(100_000)))
    whole = len(read_all(peer, wanted)) == wanted and run.wait(timeout=20) == 0
    right = silent[1] == slow[1] == 2 and 1.9 < silent[2] < 5 and not slow[0] and slow[2] < 4 and whole
    return right, f"{silent}, {slow}, {whole}"


def first_id(port):
    """The number of the first request of a run that listens there."""
    run = start("--req", "--listen", address(port), "--data", "q", "--recv-timeout", "1")
    with connect(port) as peer:
        peer.sendall(greeting(REP))
        came = read_all(peer, len(greeting(REQ) + frame(b"1234q")))
    run.communicate(timeout=60)
    return came[-5:-1]


def numbers_differ():
    """The requests of two runs have two numbers: they come of the system's random source."""
    numbers = [first_id(free_port()) for _ in range(2)]
    return len(set(numbers)) == 2 and all(number[0] >= 0x80 for number in numbers), f"{numbers}"


def peer_that_comes_back():
    """A peer that is dialed dies within its greeting and again within a message, and comes back."""
    port = free_port()
    with listener_at(port) as listener:
        run = start("--pull", "--dial", address(port), "--ascii", "--count", "1")
        for text in (b"\0SP", greeting(PUSH) + head(9) + b"abc"):
            peer, _ = listener.accept()
            peer.sendall(text)
            peer.close()
        peer, _ = listener.accept()
        peer.sendall(greeting(PUSH) + frame(b"again"))
        out, _ = run.communicate(timeout=60)
        peer.close()
    return out == b"again\n" and run.returncode == 0, f"{out!r}, status {run.returncode}"


def four_of_theirs():
    """Four of Debian's nngcat push at once."""
    port = free_port()
    run = start("--pull", "--listen", address(port), "--ascii", "--count", "4")
    connect(port).close()
    peers = [subprocess.Popen([THEIRS, "--push", "--dial", address(port), "--data", f"hello{n}"]) for n in range(4)]
    out, _ = run.communicate(timeout=60)
    for peer in peers:
        peer.wait(timeout=60)
    lines = sorted(out.splitlines())
    return lines == [b"hello%d" % n for n in range(4)] and run.returncode == 0, f"{out!r}, status {run.returncode}"


def theirs_is_dialed():
    """Our pull dials Debian's push."""
    port = free_port()
    push = subprocess.Popen([THEIRS, "--push", "--listen", address(port), "--data", "hello"])
    run = start("--pull", "--dial", address(port), "--ascii", "--count", "1")
    out, _ = run.communicate(timeout=60)
    push.wait(timeout=60)
    return out == b"hello\n" and run.returncode == 0, f"{out!r}, status {run.returncode}"


def replies_to_theirs():
    """Debian's requester gets our reply."""
    port = free_port()
    run = start("--rep", "--listen", address(port), "--ascii", "--data", "pong", "--count", "1")
    connect(port).close()
    # Without an interval nng's requester gave up at times, with `Cannot set recv timeout`, on a busy machine.
    asked = subprocess.run([THEIRS, "--req", "--dial", address(port), "--data", "ping", "--ascii", "--count", "1",
                            "--interval", "1", "--recv-timeout", "5"], stdout=subprocess.PIPE, timeout=60)
    out, _ = run.communicate(timeout=60)
    right = out == b"ping\n" and asked.stdout.strip() == b"pong"
    return right and run.returncode == 0, f"{out!r}, {asked.stdout!r}, status {run.returncode}"


def answers_theirs():
    """Debian's surveyor gets our answer."""
    port = free_port()
    run = start("--respondent", "--listen", address(port), "--ascii", "--data", "here", "--count", "1")
    connect(port).close()
    asked = subprocess.run([THEIRS, "--surveyor", "--dial", address(port), "--data", "who", "--ascii", "--count", "1",
                            "--interval", "1", "--recv-timeout", "1"], stdout=subprocess.PIPE, timeout=60)
    out, _ = run.communicate(timeout=60)
    right = out == b"who\n" and asked.stdout.strip() == b"here"
    return right and run.returncode == 0, f"{out!r}, {asked.stdout!r}, status {run.returncode}"


# The versions of pair: the option, the number, and what comes before each body.
PAIR_VERSIONS = (("--pair0", PAIR, b""), ("--pair1", PAIR1, HOP))


def brings_a_pair(option, server, dialer, server_sends):
    """Returns whether one message of a pair comes from the side that sends, and what the other one prints."""
    port = free_port()
    sends, takes = (option, "--data", "hello"), (option, "--ascii", "--count", "1")
    run = listening(server, port, *(sends if server_sends else takes))
    other = begin(dialer, *(takes if server_sends else sends), "--dial", address(port))
    taker, sender = (other, run) if server_sends else (run, other)
    outs, well = said([taker])
    if (server if server_sends else dialer) == OURS:
        # Theirs goes on and prints what comes.
        well = well and said([sender]) == ([b""], True)
    else:
        stop(sender)
    return well and outs == [b"hello"], outs


def pairs_with_theirs():
    """A pair of ours and one of Debian's, of each version: each listens in turn, and each of the two sends."""
    tried = [brings_a_pair(option, *pair, sends) for option, _, _ in PAIR_VERSIONS
             for pair in ((OURS, THEIRS), (THEIRS, OURS)) for sends in (False, True)]
    return all(well for well, _ in tried), f"{[outs for _, outs in tried]}"


def versions_do_not_meet():
    """A pair of ours of one version and one of Debian's of the other take nothing of each other, each listening in
    turn; --pair is version 0 here, and no protocol there."""
    told = []
    for mine, yours in (("--pair", "--pair1"), ("--pair1", "--pair0")):
        for server, dialer in (((OURS, mine), (THEIRS, yours)), ((THEIRS, yours), (OURS, mine))):
            port = free_port()
            run = listening(server[0], port, server[1], "--ascii", "--recv-timeout", "2")
            other = begin(*dialer, "--dial", address(port), "--data", "hello", "--interval", "1")
            told.append(said([run]) == ([b""], True))
            stop(other)
    run = subprocess.run([THEIRS, "--pair", "--listen", address(free_port())], stdout=subprocess.PIPE,
                         stderr=subprocess.PIPE, timeout=60)
    told.append((run.returncode, run.stderr) == (1, b"No protocol specified.\n"))
    return all(told), f"{told}, {run.stderr}"


# Without an interval Debian's requester gives up where it had to wait for its first peer.
ASK = ("--req", "--data", "ping", "--ascii", "--count", "1", "--recv-timeout", "20", "--interval", "20")
ANSWER = ("--rep", "--data", "pong", "--ascii")


def asked_by_four(server, asker):
    """Four requesters dial one replier."""
    port = free_port()
    replier = listening(server, port, *ANSWER)
    outs, well = said([begin(asker, *ASK, "--dial", address(port)) for _ in range(4)])
    stop(replier)
    return well and outs == [b"pong"] * 4, outs


def asks_one_that_dials(asker, server):
    """A requester listens, a replier dials it."""
    port = free_port()
    run = listening(asker, port, *ASK)
    replier = begin(server, *ANSWER, "--dial", address(port))
    outs, well = said([run])
    stop(replier)
    return well and outs == [b"pong"], outs


def asks_one_that_dies(asker, server):
    """A replier takes a request and dies; the one that listens after it gets the request too."""
    port = free_port()
    with listener_at(port) as listener:
        run = begin(asker, *ASK, "--dial", address(port))
        peer, _ = listener.accept()
        peer.sendall(greeting(REP))
        wanted = len(greeting(REQ) + frame(b"1234ping"))
        came = read_all(peer, wanted)
        peer.close()
    replier = begin(server, *ANSWER, "--listen", address(port))
    outs, well = said([run])
    stop(replier)
    return well and outs == [b"pong"] and len(came) == wanted, outs


def requests():
    """Requests and replies between ours and Debian's, both ways, each of them listening."""
    tried = [check(*pair) for check in (asked_by_four, asks_one_that_dials, asks_one_that_dies)
             for pair in ((OURS, THEIRS), (THEIRS, OURS))]
    return all(well for well, _ in tried), f"{[outs for _, outs in tried]}"


def answers(peer, body, seconds, times):
    """Answers each survey of a surveyor after `seconds` with `body`, `times` times."""
    with peer, peer.makefile("rb") as came:
        came.read(8)
        while (survey := next_body(came)) is not None:
            time.sleep(seconds)
            try:
                peer.sendall(frame(survey[:4] + body) * times)
            except OSError:
                return


# One that answers late, one that answers twice, and one that never does.
RESPONDENTS = ((b"late", 1.5, 1), (b"twice", 0, 2), (b"", 0, 0))


def respondent(port, *how):
    """A respondent that dials."""
    peer = connect(port)
    peer.sendall(greeting(RESPONDENT))
    threading.Thread(target=answers, args=(peer, *how), daemon=True).start()


def respondent_that_listens(*how):
    """The port of a respondent that listens."""
    port, listens = free_port(), threading.Event()

    def serve():
        with listener_at(port) as listener:
            listens.set()
            peer, _ = listener.accept()
        peer.sendall(greeting(RESPONDENT))
        answers(peer, *how)

    threading.Thread(target=serve, daemon=True).start()
    listens.wait()
    return port


SURVEYS = ("--surveyor", "--data", "who", "--ascii", "--interval", "2", "--count", "3")


def has_answers(out):
    """Those in time, each as often as it was given, and no other."""
    out = out.replace(b"\n", b"")
    right = out.replace(b"twice", b"").replace(b"here", b"") == b"" and b"here" in out
    return right and out.count(b"twice") in (2, 4, 6)


def surveys_three(surveyor, answerer):
    """Four respondents dial a surveyor: one answers once, one late, one twice, and one never."""
    port = free_port()
    run = listening(surveyor, port, *SURVEYS)
    other = begin(answerer, "--respondent", "--dial", address(port), "--data", "here")
    for how in RESPONDENTS:
        respondent(port, *how)
    outs, well = said([run])
    stop(other)
    return well and has_answers(outs[0]), outs


def surveys_by_dialing(surveyor, answerer):
    """A surveyor dials five that listen: two answer once, one late, one twice, and one never."""
    ports = [free_port() for _ in range(2)]
    others = [listening(answerer, port, "--respondent", "--data", "here") for port in ports]
    ports += [respondent_that_listens(*how) for how in RESPONDENTS]
    dials = [word for port in ports for word in ("--dial", address(port))]
    outs, well = said([begin(surveyor, *SURVEYS, *dials)])
    stop(*others)
    return well and has_answers(outs[0]), outs


def surveys():
    """Surveys and their answers between ours and Debian's, both ways, each of them listening."""
    tried = [check(*pair) for check in (surveys_three, surveys_by_dialing) for pair in ((OURS, THEIRS), (THEIRS, OURS))]
    return all(well for well, _ in tried), f"{[outs for _, outs in tried]}"


def words_of_devices():
    """A request that came through devices gets all their words back in front of the reply."""
    port = free_port()
    words = bytes.fromhex("000000078000002a")
    run = listening(OURS, port, *ANSWER)
    want = greeting(REP) + frame(words + b"pong")
    with connect(port) as peer:
        peer.settimeout(20)
        peer.sendall(greeting(REQ) + frame(words + b"q"))
        came = read_all(peer, len(want))
    stop(run)
    return came == want, f"{came!r}"


def takes_the_next(option, number, lead, server, dialer):
    """A pair that has a peer refuses another one, which dials on and is taken when the first has gone."""
    port = free_port()
    run = listening(server, port, option, "--ascii", "--count", "2")
    with connect(port) as first:
        first.settimeout(20)
        first.sendall(greeting(number) + frame(lead + b"one"))
        greeted = read_all(first, 8) == greeting(number)
        time.sleep(0.5)
        other = begin(dialer, option, "--dial", address(port), "--data", "two", "--interval", "1")
        time.sleep(2.5)
        waits = run.poll() is None
    outs, well = said([run])
    stop(other)
    return well and greeted and waits and outs[0].replace(b"\n", b"") == b"onetwo", outs


def pair_takes_the_next():
    """Ours with Debian's as the second peer, and the other way round, in each version."""
    tried = [takes_the_next(*version, *pair) for version in PAIR_VERSIONS for pair in ((OURS, THEIRS), (THEIRS, OURS))]
    return all(well for well, _ in tried), f"{[outs for _, outs in tried]}"


# Frames of which each ends the pipe of a pair of version 1: they have no word, or one that is no hop count.
NO_HOP_COUNTS = (b"", b"\0\0\0", b"\0\1\0\1a", b"\1\0\0\1a", b"\0\0\1\1a")
# Frames with a hop count above 8, its usual bound, and good ones with what is printed of them.
TOO_FAR = (b"\0\0\0\x09far", b"\0\0\0\xfffar")
COUNTED = ((b"\0\0\0\1one", b"one"), (b"\0\0\0\x08eight", b"eight"), (b"\0\0\0\0zero", b"zero"))


def met(peer):
    """The peer, greeted by a pair of version 1."""
    peer.settimeout(20)
    peer.sendall(greeting(PAIR1))
    if read_all(peer, 8) != greeting(PAIR1):
        raise OSError("no greeting")
    return peer


def hops_come_to(run, peers):
    """Frames with and without hop counts come to a pair that prints: one without ends its own pipe, and the next peer
    is served; one with too many is dropped, and its pipe stays."""
    told = []
    for bad in NO_HOP_COUNTS:
        with next(peers) as peer:
            peer.sendall(frame(HOP + b"before"))
            told.append(reads(run, b"before"))
            peer.sendall(frame(bad))
            told.append(is_over(peer))
        # Debian's refuses a peer for a moment after it has closed the pipe of the one before.
        time.sleep(0.2)
    with next(peers) as peer:
        for far in TOO_FAR:
            for body, text in COUNTED:
                peer.sendall(frame(far) + frame(body))
                told.append(reads(run, text))
    return told


def peers_that_dial(port):
    while True:
        yield met(connect(port))


def peers_that_listen(listener):
    while True:
        yield met(listener.accept()[0])


def hop_counts():
    """Ours and Debian's print the same of a plain peer's frames with and without hop counts, listening and dialing."""
    told = {}
    for name, program in (("ours", OURS), ("Debian's", THEIRS)):
        if program is None:
            continue
        port = free_port()
        run = listening(program, port, "--pair1", "--raw")
        told[name] = hops_come_to(run, peers_that_dial(port))
        stop(run)
        port = free_port()
        with listener_at(port) as listener:
            listener.settimeout(20)
            run = begin(program, "--pair1", "--raw", "--dial", address(port))
            told[name] += hops_come_to(run, peers_that_listen(listener))
        stop(run)
    wrong = {name: [n for n, well in enumerate(each) if not well] for name, each in told.items()}
    return not any(wrong.values()), f"{[len(each) for each in told.values()]} steps, wrong: {wrong}"


def sends_a_hop_count():
    """Each message of ours begins with 00 00 00 01, an empty one too."""
    told = []
    for data in ("x", "", "0" * 300):
        port = free_port()
        run = start("--pair1", "--listen", address(port), "--data", data, "--count", "2", "--interval", "0")
        with met(connect(port)) as peer:
            wanted = frame(HOP + data.encode()) * 2
            told.append(read_all(peer, len(wanted)) == wanted)
        told.append(said([run]) == ([b""], True))
    return all(told), f"{told}"


def bus_of_four():
    """A bus sends to three others: ours to two of Debian's and one of ours, and the other way round."""
    told = []
    for sender, others in ((OURS, (THEIRS, THEIRS, OURS)), (THEIRS, (OURS, OURS, THEIRS))):
        port = free_port()
        run = listening(sender, port, "--bus", "--data", "all", "--interval", "1")
        outs, well = said([begin(other, "--bus", "--dial", address(port), "--ascii", "--count", "1",
                                 "--recv-timeout", "20") for other in others])
        stop(run)
        told.append((outs, well))
    for sender, listener in ((OURS, THEIRS), (THEIRS, OURS)):
        port = free_port()
        run = listening(listener, port, "--bus", "--ascii", "--count", "1", "--recv-timeout", "20")
        other = begin(sender, "--bus", "--dial", address(port), "--data", "all", "--interval", "1")
        told.append(said([run]))
        stop(other)
    return all(well and set(outs) == {b"all"} for outs, well in told), f"{told}"


def publishes():
    """A publisher that listens has three subscribers of different topics, and one that dials has one; another topic
    takes nothing."""
    told = []
    topics = ((), ("--subscribe", "ne"), ("--subscribe", "old", "--subscribe", "news"))
    for publisher, subscribers in ((OURS, (THEIRS, THEIRS, OURS)), (THEIRS, (OURS, OURS, THEIRS))):
        port = free_port()
        run = listening(publisher, port, "--pub", "--data", "news", "--interval", "1")
        told.append(said([begin(program, "--sub", "--dial", address(port), "--ascii", "--count", "2", *more)
                          for program, more in zip(subscribers, topics)]))
        others, well = said([begin(program, "--sub", "--dial", address(port), "--ascii", "--subscribe", "old",
                                   "--recv-timeout", "3") for program in (OURS, THEIRS)])
        told.append(([b"newsnews"] if others == [b"", b""] else others, True))
        stop(run)
    for publisher, subscriber in ((OURS, THEIRS), (THEIRS, OURS)):
        port = free_port()
        run = listening(subscriber, port, "--sub", "--ascii", "--count", "2", "--recv-timeout", "20")
        other = begin(publisher, "--pub", "--dial", address(port), "--data", "news", "--interval", "1")
        told.append(said([run]))
        stop(other)
    told = [([out.replace(b"\n", b"") for out in outs], well) for outs, well in told]
    return all(well and set(outs) == {b"newsnews"} for outs, well in told), f"{told}"


def printed(program, form, bodies):
    port = free_port()
    run = subprocess.Popen([program, "--pull", "--listen", address(port), form, "--count", str(len(bodies))],
                           stdout=subprocess.PIPE)
    peer = connect(port)
    peer.sendall(greeting(PUSH) + b"".join(frame(body) for body in bodies))
    out, _ = run.communicate(timeout=60)
    peer.close()
    return out


def formats_of_theirs():
    """Each format prints the same bytes as Debian's, but for the line feed behind each line of --ascii."""
    every = bytes(range(256))
    wrong = []
    for form in ("--raw", "--quoted", "--hex", "--msgpack", "--ascii"):
        for body in (b"", b"a", every, b"x" * 255, b"x" * 256, b"x" * 65535, b"x" * 65536):
            ours, theirs = printed(OURS, form, [body]), printed(THEIRS, form, [body])
            if ours != theirs + (b"\n" if form == "--ascii" else b""):
                wrong.append((form, len(body)))
    return not wrong, f"35 bodies, other: {wrong}"


def answered(*words, **more):
    """Status, standard output and standard error of our program on these words."""
    run = subprocess.run([OURS, *words], stdout=subprocess.PIPE, stderr=subprocess.PIPE, timeout=60, **more)
    return run.returncode, run.stdout, run.stderr


# Each option of the help: how its line begins, its unit or range, and its default.
OPTIONS = [
    ("--listen ADDRESS", "0 to 65535", None),
    ("--dial ADDRESS", "--dial takes neither * nor port 0", None),
    ("--data TEXT", "send TEXT", None),
    ("--file NAME", "standard input", None),
    ("--subscribe TEXT", "1,024 bytes", "Without it all"),
    ("--recv-max BYTES", "0 to 2,147,483,647", "Default: 1,048,576"),
    ("--raw", "bytes", "without one nothing is printed"),
    ("--ascii", "a line each", "without one nothing is printed"),
    ("--quoted", "a line each", "without one nothing is printed"),
    ("--hex", "two digits", "without one nothing is printed"),
    ("--msgpack", "MessagePack", "without one nothing is printed"),
    ("--count N", "0 to 4,294,967,295", "Default: 1 for what sends first and has no --interval, else no bound"),
    ("--interval SECONDS", "0 to 86,400", "Default: at once"),
    ("--recv-timeout SECONDS", "0 to 86,400", "Default: never"),
    ("--send-timeout SECONDS", "0 to 86,400", "Default: never"),
    ("--drill N", "1 to 1,000,000", None),
    ("--help, --version", "print this text", None),
]
ROLES = ("push", "pull", "pub", "sub", "req", "rep", "pair", "pair1", "bus", "surveyor", "respondent")


def told_of(lines, option):
    """The text of an option: its line and those below it, up to the next option or an empty line; None without one."""
    for n, line in enumerate(lines):
        if line.startswith("  " + option + " "):
            block = [line]
            for more in lines[n + 1:]:
                if not more or more.startswith("  --"):
                    break
                block.append(more)
            return " ".join(" ".join(block).split())
    return None


def lacks(text, lines):
    """What the help lacks: a role, an option, its unit or its default."""
    whole = " ".join(text.split())
    lacking = [role for role in ROLES if f"--{role}" not in text]
    for option, unit, default in OPTIONS:
        told = told_of(lines, option)
        near = told and unit in (whole if option.endswith("ADDRESS") else told)
        if not near or (default and default not in (told if default.startswith("Default") else whole)):
            lacking.append(option)
    return lacking


def help_and_version():
    """--help and --version as the only word: status 0, on standard output, at most 68 lines of 80 columns, four examples, each option
    with its unit and default. Both complain where standard output takes nothing."""
    status, text, err = answered("--help")
    lines = text.decode().split("\n")
    right = status == 0 and err == b"" and len(lines) <= 69 and lines[-1] == ""
    right = right and all(len(line) <= 80 for line in lines)
    right = right and sum(line.startswith("  nngcat --") for line in lines) >= 4
    lacking = lacks(text.decode(), lines)
    status, version, err = answered("--version")
    right = right and status == 0 and err == b"" and version.count(b"\n") == 1 and version.startswith(b"nngcat ")
    status, out, err = answered("--help", "--version")
    right = right and status == 1 and out == b"" and err.startswith(b"nngcat: bad word 0\n")
    if os.path.exists("/dev/full"):
        for word in ("--help", "--version"):
            with open("/dev/full", "wb") as full:
                run = subprocess.run([OURS, word], stdout=full, stderr=subprocess.PIPE, timeout=60)
            right = right and (run.returncode, run.stderr) == (5, b"nngcat: output fault\nnngcat: no storage space\n")
    return right and not lacking, f"{len(lines) - 1} lines, {version!r}, lacking: {lacking}"


def wrong_words():
    """A wrong word is named: its place, then the word as the format quoted prints it, whatever its bytes."""
    listen = ("--listen", "tcp://127.0.0.1:5555")
    missing = b"a word is missing at the end: "
    rows = [
        (("--bogus",), 0, b'can\'t go on with "--bogus"'),
        ((), 0, missing + b"a role"),
        (listen, 2, missing + b"a role"),
        (("--pull",), 1, missing + b"--listen or --dial"),
        (("--push", *listen), 3, missing + b"--data or --file"),
        (("--pull", "--listen"), 2, missing + b"the value of the last option"),
        (("--drill",), 1, missing + b"the value of the last option"),
        (("--pull", *listen, "x"), 3, b'can\'t go on with "x"'),
        (("--pull", *listen, "--count", "\x1b[31m\r\n\t\x7f\"\\\xe9"), 4,
         b'can\'t go on with "\\x1b[31m\\r\\n\\t\\x7f\\"\\\\\\xc3\\xa9"'),
        (("",), 0, b'can\'t go on with ""'),
    ]
    wrong = []
    for words, at, text in rows:
        found = answered(*words)
        if found != (1, b"", b"nngcat: bad word %d\nnngcat: see nngcat --help; %s\n" % (at, text)):
            wrong.append((words, found))
    found = answered(b"--pull", b"\xff")
    if found != (1, b"", b"nngcat: bad word 0\nnngcat: see nngcat --help; a word is not UTF-8\n"):
        wrong.append(found)
    return not wrong, f"{len(rows) + 1} lists, other: {wrong}"


def faults_name_their_words():
    """A fault of a file or of the net is followed by the words that it may be about."""
    port = free_port()
    with listener_at(port):
        net = answered("--pull", "--listen", address(port), "--dial=tcp://127.0.0.1:1")
    twice = answered("--bus", "--listen", "inproc://x", "--dial", "inproc://x", "--listen=inproc://x")
    lost = answered("--push", "--listen", address(free_port()), "--file", "no such\tfile")
    lines = b'nngcat: --listen "inproc://x"\n' * 2
    right = twice == (4, b"", b"nngcat: network fault\n" + lines)
    right = right and net == (4, b"", b"nngcat: network fault\nnngcat: %s: address in use\n" % address(port).encode())
    return right and lost == (6, b"", b'nngcat: file fault\nnngcat: --file "no such\\tfile"\nnngcat: no such file\n'), f"{net}, {twice}, {lost}"


def standard_input():
    """--file - sends what standard input holds, every byte of it."""
    port = free_port()
    body = bytes(range(256)) * 300
    run = start("--push", "--listen", address(port), "--file", "-", stdin=subprocess.PIPE)
    run.stdin.write(body)
    run.stdin.close()
    run.stdin = None
    peer = connect(port)
    peer.sendall(greeting(PULL))
    wanted, came = greeting(PUSH) + frame(body), b""
    while len(came) < len(wanted):
        piece = peer.recv(65536)
        if not piece:
            break
        came += piece
    run.communicate(timeout=60)
    peer.close()
    return came == wanted and run.returncode == 0, f"{len(came)} bytes, status {run.returncode}"


def empty_input():
    """--file - sends an empty message where standard input is empty, and is a fault where it is closed."""
    port = free_port()
    run = start("--push", "--listen", address(port), "--file", "-", stdin=subprocess.DEVNULL)
    peer = connect(port)
    peer.sendall(greeting(PULL))
    wanted, came = greeting(PUSH) + frame(b""), b""
    while len(came) < len(wanted):
        piece = peer.recv(64)
        if not piece:
            break
        came += piece
    run.communicate(timeout=60)
    peer.close()
    closed = subprocess.run(["sh", "-c", 'exec "$0" "$@" <&-', OURS, "--push", "--listen", address(free_port()), "--file", "-"],
                            stdout=subprocess.PIPE, stderr=subprocess.PIPE, timeout=60)
    right = came == wanted and run.returncode == 0
    return right and closed.returncode == 6, f"{came!r}, closed: status {closed.returncode} {closed.stderr!r}"


def completion():
    """The completion of words in bash."""
    shell = shutil.which("bash")
    if not shell:
        return True, "skipped, no bash"
    run = subprocess.run([shell, os.path.join(HERE, "completion.sh")], stdout=subprocess.PIPE, timeout=60)
    wrong = [line for line in run.stdout.decode().splitlines() if not line.startswith("ok")]
    return run.returncode == 0 and not wrong, f"{run.stdout.count(10)} cases, other: {wrong}"


def manual_page():
    """The manual page is laid out without a warning."""
    if not shutil.which("man"):
        return True, "skipped, no man"
    run = subprocess.run(["man", "--warnings", "-E", "UTF-8", "-l", "-Tutf8", "-Z", os.path.join(HERE, "..", "share", "nngcat.1")],
                         stdout=subprocess.DEVNULL, stderr=subprocess.PIPE, timeout=60)
    return run.returncode == 0 and run.stderr == b"", f"{run.stderr!r}"


# ---- All roles and their words, ours against theirs

ANY = bytes.fromhex("6100225c0a7fff7a")
ID = bytes.fromhex("80000005")


def plays_against(port, role, first, answer, heard):
    """A peer of this role: it sends these frames, answers each that comes, and keeps what came with its time."""
    peer = connect(port)
    peer.sendall(greeting(role) + b"".join(frame(body) for body in first))

    def hear():
        with peer, peer.makefile("rb") as came:
            came.read(8)
            try:
                while (body := next_body(came)) is not None:
                    heard.append((time.time(), body))
                    if answer is not None:
                        peer.sendall(frame(answer(body)))
            except OSError:
                pass

    thread = threading.Thread(target=hear, daemon=True)
    thread.start()
    return thread


def comes_to(program, words, peer):
    """What a run that listens prints, its status, and what the peer heard of it; None of the status where it didn't end."""
    port = free_port()
    heard = []
    run = begin(program, *words, "--listen", address(port))
    if peer is None:
        thread = None
    else:
        thread = plays_against(port, *peer, heard)
    try:
        out, _ = run.communicate(timeout=12)
        status = run.returncode
    except subprocess.TimeoutExpired:
        run.kill()
        out, _ = run.communicate()
        status = None
    if thread is not None:
        thread.join(timeout=2)
    return out, status, heard


def rows_of_formats():
    """Each role that prints, in each format, one message of bytes of all kinds."""
    echo = lambda body: body[:4] + ANY
    roles = [
        ("--pull", (), (PUSH, [ANY], None)),
        ("--sub", (), (PUB, [ANY], None)),
        ("--pair0", (), (PAIR, [ANY], None)),
        ("--pair1", (), (PAIR1, [HOP + ANY], None)),
        ("--bus", (), (BUS, [ANY], None)),
        ("--rep", ("--data", "ok"), (REQ, [ID + ANY], None)),
        ("--respondent", ("--data", "ok"), (SURVEYOR, [ID + ANY], None)),
        ("--req", ("--data", "q"), (REP, [], echo)),
        ("--surveyor", ("--data", "q"), (RESPONDENT, [], echo)),
    ]
    for role, data, peer in roles:
        for form in ("--ascii", "--raw", "--quoted", "--hex", "--msgpack", None):
            yield (role, *data, *([form] if form else []), "--count", "1"), peer


def rows_of_counts():
    """Each role, twice."""
    echo = lambda body: body[:4] + b"r"
    yield ("--pull", "--raw", "--count", "2"), (PUSH, [b"a", b"b", b"c"], None)
    yield ("--sub", "--subscribe", "b", "--raw", "--count", "2"), (PUB, [b"a", b"b1", b"b2", b"b3"], None)
    yield ("--pair0", "--raw", "--count", "2"), (PAIR, [b"a", b"b", b"c"], None)
    yield ("--pair1", "--raw", "--count", "2"), (PAIR1, [HOP + b"a", HOP + b"b", HOP + b"c"], None)
    yield ("--bus", "--raw", "--count", "2"), (BUS, [b"a", b"b", b"c"], None)
    for role, other in (("--push", PULL), ("--pub", SUB), ("--pair0", PAIR), ("--pair1", PAIR1), ("--bus", BUS)):
        yield (role, "--data", "d", "--interval", "1", "--count", "2"), (other, [], None)
    for role, other in (("--req", REP), ("--surveyor", RESPONDENT)):
        yield (role, "--data", "d", "--raw", "--interval", "2", "--count", "2"), (other, [], echo)
    for role, other in (("--rep", REQ), ("--respondent", SURVEYOR)):
        yield (role, "--data", "d", "--raw", "--count", "2"), (other, [ID + b"a", ID + b"b"], None)


def rows_of_times():
    """Each role whose time runs out, and each that ends after one message."""
    for role in ("--pull", "--sub", "--pair0", "--pair1", "--bus"):
        yield (role, "--raw", "--recv-timeout", "1"), None
    for role in ("--rep", "--respondent"):
        yield (role, "--data", "d", "--raw", "--recv-timeout", "1"), None
    for role, other in (("--push", PULL), ("--pub", SUB), ("--pair0", PAIR), ("--pair1", PAIR1), ("--bus", BUS)):
        yield (role, "--data", "d"), (other, [], None)
    yield ("--req", "--data", "d", "--raw", "--recv-timeout", "1"), (REP, [], None)
    yield ("--surveyor", "--data", "d", "--raw", "--recv-timeout", "1"), (RESPONDENT, [], None)
    for role in ("--push", "--pair0", "--pair1", "--req"):
        yield (role, "--data", "d", "--send-timeout", "1"), None
    for role, other in (("--pub", SUB), ("--bus", BUS), ("--surveyor", RESPONDENT)):
        yield (role, "--data", "d", "--interval", "1", "--count", "1", "--send-timeout", "1"), (other, [], None)
    for role, other in (("--rep", REQ), ("--respondent", SURVEYOR)):
        yield (role, "--data", "d", "--raw", "--count", "1", "--send-timeout", "1"), (other, [ID + b"a"], None)


def same_but_ids(mine, yours):
    """The same bodies; ids of requests and surveys differ by the dice."""
    cut = lambda heard: [body[4:] if body[:1] >= b"\x80" else body for _, body in heard]
    return cut(mine) == cut(yours)


def for_theirs(words):
    """The words with what Debian's needs to do the same: a role that sends to all waits for its peer, and a requester
    has an interval, without which it may give up."""
    more = ()
    if words[0] in ("--pub", "--bus", "--surveyor") and "--data" in words:
        more += ("--delay", "1")
    if words[0] in ("--req", "--surveyor") and "--interval" not in words and "--recv-timeout" not in words:
        more += ("--interval", "2")
    return words + more


# How many rows of the whole table end otherwise; docs/DECISIONS.md gives the reasons.
END_OTHERWISE = 9


def ends_otherwise(words, peer):
    """The two statuses of a row that docs/DECISIONS.md lets differ, ours first (None: it doesn't end); None for all
    other rows."""
    sends_once = "--data" in words and not {"--interval", "--send-timeout"} & set(words)
    if words[0] in ("--pair0", "--pair1", "--bus") and sends_once:
        return 0, None
    if words[0] in ("--rep", "--respondent") and "--recv-timeout" in words:
        return 0, 1
    if "--send-timeout" in words and peer is None:
        return 2, 1
    return None


def whole_table():
    """For each role, its formats, counts, intervals and times: what is printed, what the peer hears, and the status."""
    known, other, count = 0, [], 0
    for rows in (rows_of_formats(), rows_of_counts(), rows_of_times()):
        for words, peer in rows:
            count += 1
            out, status, heard = comes_to(OURS, words, peer)
            out2, status2, heard2 = comes_to(THEIRS, for_theirs(words), peer)
            same = out.replace(b"\n", b"") == out2.replace(b"\n", b"") if "--ascii" in words else out == out2
            known += status != status2
            wanted = ends_otherwise(words, peer) or (status, status)
            if not (same and same_but_ids(heard, heard2)) or (status, status2) != wanted:
                other.append((" ".join(words), (out, status, heard), (out2, status2, heard2)))
    return not other and known == END_OTHERWISE, f"{count} rows, of which {known} end otherwise, other: {other}"


# ---- Paths of IPC

PULL_ONE = ("--pull", "--ascii", "--count", "1")
PUSH_ONE = ("--push", "--data", "hello")


def is_socket(port):
    return os.path.exists(path(port)) and stat.S_ISSOCK(os.stat(path(port)).st_mode)


def refused(port, why):
    """What `answered` returns where the system refuses this address."""
    return 4, b"", f"nngcat: network fault\nnngcat: {address(port)}: {why}\n".encode()


def a_path_that_is_there():
    """A listen at a path where something is ends with status 4, names it and changes nothing: where somebody listens,
    where one that was killed listened, and at a file. A run makes its file, which stays when it ends."""
    port = free_port()
    words = (*PULL_ONE, "--listen", address(port))
    first = listening(OURS, port, *PULL_ONE)
    told = [answered(*words) == refused(port, "address in use")]
    stop(first)
    told.append(is_socket(port) and answered(*words) == refused(port, "address in use") and is_socket(port))
    os.unlink(path(port))
    run = listening(OURS, port, *PULL_ONE)
    with connect(port) as peer:
        peer.sendall(greeting(PUSH) + frame(b"hello"))
        told.append(said([run]) == ([b"hello"], True) and is_socket(port))
    os.unlink(path(port))
    with open(path(port), "wb") as file:
        file.write(b"mine")
    told.append(answered(*words) == refused(port, "address in use"))
    with open(path(port), "rb") as file:
        told.append(file.read() == b"mine")
    return all(told), f"{told}"


def theirs_takes_a_path_over():
    """Debian's nngcat replaces what is at a path where nobody listens, a socket that ours left or any file, and leaves
    its own; where somebody listens it ends with 1."""
    told = []
    for left in (True, False):
        port = free_port()
        if left:
            stop(listening(OURS, port, *PULL_ONE))
        else:
            with open(path(port), "wb") as file:
                file.write(b"mine")
        told.append(is_socket(port) == left)
        run = listening(THEIRS, port, *PULL_ONE)
        told.append(said([run, start(*PUSH_ONE, "--dial", address(port))]) == ([b"hello", b""], True) and is_socket(port))
    port = free_port()
    with listener_at(port):
        run = subprocess.run([THEIRS, *PULL_ONE, "--listen", address(port)], stdout=subprocess.PIPE, stderr=subprocess.PIPE,
                             timeout=60)
        told.append((run.returncode, run.stdout) == (1, b"") and b"Address in use" in run.stderr)
    return all(told), f"{told}"


def a_path_where_nobody_listens():
    """A dial of a path that isn't there, and of one whose listener was killed, is no fault: it times out; and it is made
    again until somebody listens, ours or Debian's."""
    told = []
    for program, left in ((OURS, False), (OURS, True), (THEIRS, False), (THEIRS, True)):
        port = free_port()
        if left:
            stop(listening(OURS, port, *PULL_ONE))
        told.append(answered("--pull", "--recv-timeout", "1", "--dial", address(port)) == (0, b"", b""))
        run = start(*PUSH_ONE, "--dial", address(port))
        time.sleep(1)
        told.append(run.poll() is None)
        if left:
            os.unlink(path(port))
        told.append(said([begin(program, *PULL_ONE, "--listen", address(port)), run]) == ([b"hello", b""], True))
    return all(told), f"{told}"


def ours_is_killed_and_comes_back():
    """Our pull is killed while Debian's push and ours dial it, and is served by both again, once its path is removed."""
    port, came = free_port(), []
    pushes = [begin(program, "--push", "--data", text, "--interval", "1", *more, "--dial", address(port))
              for program, text, more in ((OURS, "a", ()), (THEIRS, "b", ("--async",)))]
    for _ in range(3):
        run = begin(OURS, "--pull", "--raw", "--listen", address(port))
        came.append(shows(run, b"a", b"b"))
        stop(run)
        os.unlink(path(port))
    stays = all(push.poll() is None for push in pushes)
    stop(*pushes)
    return all(came) and stays, f"{came}"


def shows(run, *wanted, seconds=20):
    """Returns whether a run that goes on prints each of these, in any order and among other bytes, within `seconds`."""
    came, until = b"", time.time() + seconds
    while not all(text in came for text in wanted):
        ready, _, _ = select.select([run.stdout], [], [], max(0, until - time.time()))
        piece = os.read(run.stdout.fileno(), 1024) if ready else b""
        if not piece:
            return False
        came += piece
    return True


def meet_at(server, dialer, place):
    """Returns whether a message comes over between two runs at this path."""
    pull = begin(server, *PULL_ONE, "--listen", f"ipc://{place}")
    while not is_listened_at(place) and pull.poll() is None:
        time.sleep(0.02)
    well = said([pull, begin(dialer, *PUSH_ONE, "--dial", f"ipc://{place}")]) == ([b"hello", b""], True)
    if os.path.exists(place):
        os.unlink(place)
    return well


def long_paths():
    """A path of 100 bytes is listened at and dialed, ours to Debian's and the other way; one of 101 is no address, from
    its last byte on. So are an empty path and one with a space."""
    place = path("").ljust(100, "a")
    told = [meet_at(*pair, place) for pair in ((OURS, OURS), (OURS, THEIRS), (THEIRS, OURS))]
    for word, at, rest in ((f"ipc://{place}b", 106, "b"), ("ipc://", 6, ""), ("ipc:///tmp/a b", 12, " b")):
        for option in ("--listen", "--dial"):
            lines = (f'nngcat: bad word 2\nnngcat: see nngcat --help; can\'t go on with "{word}"\n'
                     f'nngcat: no address goes on at byte {at} with "{rest}"\n')
            told.append(answered("--pull", option, word) == (1, b"", lines.encode()))
    return all(told), f"{told}"


def a_full_path_holds_nobody_up():
    """A listener that has no room for one more isn't waited for: another end is served meanwhile, and this one later."""
    full, other = free_port(), free_port()
    with listener_at(full, 0) as listener, connect(full):
        push = listening(OURS, other, "--push", "--data", "first")
        run = start("--pull", "--ascii", "--count", "2", "--dial", address(full), "--dial", address(other))
        told = [reads(run, b"first\n"), said([push]) == ([b""], True)]
        listener.accept()[0].close()
        peer, _ = listener.accept()
        with peer:
            peer.sendall(greeting(PUSH) + frame(b"second"))
            told.append(said([run]) == ([b"second"], True))
    return all(told), f"{told}"


def is_over(peer):
    """Returns whether the peer has ended its side, or reset it."""
    try:
        return peer.recv(1) == b""
    except ConnectionResetError:
        return True


def another_byte_ends_its_link():
    """A peer that sends another byte than 01 where a frame begins ends its own link alone, at once: first, and after a
    message. One that is held meanwhile is served, and so is the next, of those that dial and of those that are dialed."""
    port = free_port()
    run = start("--pull", "--listen", address(port), "--ascii", "--count", "4")
    with connect(port) as held:
        held.settimeout(20)
        held.sendall(greeting(PUSH))
        told = [read_all(held, 8) == greeting(PULL)]
        for text, printed in ((b"\2", b""), (b"\0" * 9, b""), (frame(b"one") + b"\0", b"one\n")):
            with connect(port) as peer:
                peer.settimeout(20)
                peer.sendall(greeting(PUSH) + text)
                told.append(read_all(peer, 8) == greeting(PULL) and reads(run, printed) and is_over(peer))
        held.sendall(frame(b"two"))
        told.append(reads(run, b"two\n"))
        with connect(port) as peer:
            peer.sendall(greeting(PUSH) + frame(b"three"))
            told.append(reads(run, b"three\n"))
        held.sendall(frame(b"four"))
        told.append(said([run]) == ([b"four"], True))
    port = free_port()
    with listener_at(port) as listener:
        run = start(*PULL_ONE, "--dial", address(port))
        for text in (b"\2", frame(b"again")):
            peer, _ = listener.accept()
            with peer:
                peer.settimeout(20)
                peer.sendall(greeting(PUSH) + text)
                told.append(read_all(peer, 8) == greeting(PULL) and is_over(peer))
        told.append(said([run]) == ([b"again"], True))
    return all(told), f"{told}"


def no_permission():
    """Another user may connect as the mode of the file says, which the umask sets. Where it may not, its dial is made
    again until it may; where it may not make a file, its listen ends with status 4 and names it."""
    if os.geteuid() != 0:
        return True, "skipped, not root"
    port, told = free_port(), []
    ours = os.path.join(Transport.folder or os.path.dirname(path(port)), "nngcat")
    shutil.copy(OURS, ours)
    os.chmod(Transport.folder, 0o755)
    nobody = {"user": 65534, "group": 65534, "extra_groups": [], "cwd": "/"}
    push = lambda **more: begin(ours, *PUSH_ONE, "--dial", address(port), **more)
    run = subprocess.run([ours, *PULL_ONE, "--listen", address(port)], stdout=subprocess.PIPE, stderr=subprocess.PIPE,
                         timeout=60, **nobody)
    told.append((run.returncode, run.stdout, run.stderr) == refused(port, "permission denied"))
    told.append(not os.path.exists(path(port)))
    run = begin(OURS, *PULL_ONE, "--listen", address(port), umask=0o077)
    connect(port).close()
    told.append(stat.S_IMODE(os.stat(path(port)).st_mode) == 0o700)
    other = push(**nobody)
    time.sleep(1)
    told.append(other.poll() is None and run.poll() is None)
    os.chmod(path(port), 0o777)
    told.append(said([run, other]) == ([b"hello", b""], True))
    return all(told), f"{told}"


def run_checks(once=(), each=(), ipc=(), ws=()):
    """Runs the checks that the words name, or all: those that no transport is for, those for each transport, those for
    IPC, and beside TCP those that go over WebSocket too. Prints a line for each, and returns how many failed."""
    rows = [(check, None) for check in once] + [(check, over) for over in OVER for check in each]
    rows += [(check, "ipc") for check in ipc if "ipc" in OVER] + [(check, "ws") for check in ws if "tcp" in OVER]
    failed = 0
    for check, over in rows:
        if sys.argv[1:] and check.__name__ not in sys.argv[1:]:
            continue
        Transport.now = over or "tcp"
        try:
            well, told = check()
        except Exception as e:
            well, told = False, repr(e)
        failed += not well
        stop_all()
        where = f" over {over}" if over else ""
        print(f"{'ok    ' if well else 'FAILED'} {check.__name__}{where}: {told}", flush=True)
    return failed


def main():
    if not os.access(OURS, os.X_OK):
        print("skipped: crates/nngcat/out/nngcat isn't built")
        return 0
    once = [help_and_version, wrong_words, completion, manual_page]
    each = [faults_name_their_words, standard_input, empty_input, broken_peers, slow_reader, slow_peer, longest_message,
            full_output, send_times_out, numbers_differ, peer_that_comes_back, words_of_devices, hop_counts,
            sends_a_hop_count, idle_rounds_allocate_nothing, many_links, many_messages, many_pushed]
    ipc = [a_path_that_is_there, a_full_path_holds_nobody_up, another_byte_ends_its_link, no_permission]
    if THEIRS:
        each += [theirs_to_ours, theirs_pulls_from_ours, ours_to_theirs, four_of_theirs, theirs_is_dialed,
                 replies_to_theirs, answers_theirs, pairs_with_theirs, versions_do_not_meet, pair_takes_the_next,
                 requests, surveys, bus_of_four, publishes, many_with_theirs, whole_table]
        once += [formats_of_theirs]
        ipc += [theirs_takes_a_path_over, a_path_where_nobody_listens, ours_is_killed_and_comes_back, long_paths]
    else:
        print("skipped: no nngcat of nng is installed")
    return run_checks(once, each, ipc)


if __name__ == "__main__":
    sys.exit(main())
