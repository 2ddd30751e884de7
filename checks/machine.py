#!/usr/bin/env python3
"""Tries what users meet at the machine's side of the built nngcat: peers that flood, that are slow or silent, that close
in mid-stream, and an input that doesn't wait.

Each check prints a line; the status is the number of checks that failed.
"""
import fcntl
import os
import socket
import statistics
import struct
import subprocess
import sys
import threading
import time

import websocket as ws
from outside import (OURS, HOP, PAIR, PAIR1, PAIR_VERSIONS, PULL, PUSH, BUS, address, begin, connect, frame, free_port,
                     greeting, memory, read_all, start, stop, stop_all)

PONG = b"\x8a\x80\0\0\0\0"


def client(port, name):
    """A WebSocket link whose opening is done."""
    return ws.client(port, name)[0]


def flood(peer, first, piece, stopped):
    """Sends the first bytes once, and then the piece again and again until it is stopped."""
    peer.settimeout(1)
    peer.sendall(first)
    text = piece * (65536 // len(piece))
    while not stopped.is_set():
        try:
            peer.sendall(text)
        except OSError:
            return


def answer_time(run_port, count=10):
    """The longest of some round trips of one requester over WebSocket, in milliseconds."""
    peer = client(run_port, b"rep")
    peer.settimeout(10)
    longest = 0
    for i in range(count):
        begun = time.time()
        peer.sendall(ws.frame(struct.pack(">I", 0x80000000 | i) + b"ping"))
        got = ws.read_frame(peer)
        if got is None or got[2][4:] != b"pong":
            return None
        longest = max(longest, (time.time() - begun) * 1000)
    peer.close()
    return longest


def flooded_by(first, piece):
    """The longest answer of each of ten clients while one link sends this without pause."""
    port = free_port()
    run = ws.listening(OURS, port, "--rep", "--data", "pong")
    bad = client(port, b"rep")
    stopped = threading.Event()
    sender = threading.Thread(target=flood, args=(bad, first, piece, stopped))
    sender.start()
    time.sleep(0.3)
    try:
        times = [answer_time(port) for _ in range(10)]
    finally:
        stopped.set()
        sender.join()
        bad.close()
        stop(run)
    return times


def a_flood_holds_nobody_up():
    """While one WebSocket link floods with empty pongs, pings, or empty pieces of a message, ten others are answered."""
    told, well = [], True
    for name, first, piece in (("pongs", b"", PONG), ("pings", b"", b"\x89\x80\0\0\0\0"),
                               ("pieces", b"\x02\x80\0\0\0\0", b"\x00\x80\0\0\0\0")):
        times = flooded_by(first, piece)
        good = None not in times and max(times) < 320
        well = well and good
        told.append(f"{name} {max(t or 99999 for t in times):.1f} ms at worst, median {statistics.median(t or 99999 for t in times):.1f}")
    return well, "; ".join(told)


def a_flood_does_not_hold_a_deadline():
    """A pull that is flooded with pongs ends at its receive timeout, and two seconds for the peer that doesn't shut."""
    port = free_port()
    run = ws.listening(OURS, port, "--pull", "--recv-timeout", "2")
    bad = client(port, b"pull")
    stopped = threading.Event()
    sender = threading.Thread(target=flood, args=(bad, b"", PONG, stopped))
    sender.start()
    begun = time.time()
    try:
        run.communicate(timeout=20)
        took = time.time() - begun
    except subprocess.TimeoutExpired:
        took = 99
    finally:
        stopped.set()
        sender.join()
        bad.close()
        stop_all()
    return 1.5 < took < 6, f"{took:.1f} s"


def slow_reader(words, role, lead, byte):
    """How many of 12 messages of 200 kB arrive at a peer that reads slowly, and whether it sent a message after 0.3 s.
    Before each body comes `lead`."""
    port = free_port()
    data = "x" * 199_990
    path = f"/tmp/slow-reader-{os.getpid()}"
    with open(path, "w") as f:
        f.write(data)
    run = start(*words, "--listen", address(port), "--file", path, "--count", "12", "--interval", "0")
    peer = connect(port)
    peer.setsockopt(socket.SOL_SOCKET, socket.SO_RCVBUF, 65536)
    peer.sendall(greeting(role))
    if read_all(peer, 8)[:4] != b"\0SP\0":
        return None
    begun, came, sent = time.time(), 0, False
    peer.settimeout(30)
    try:
        while True:
            if byte and not sent and time.time() - begun > 0.3:
                peer.sendall(frame(lead + b"a"))
                sent = True
            time.sleep(0.01)
            piece = peer.recv(20_000)
            if not piece:
                break
            came += len(piece)
    except OSError:
        pass
    peer.close()
    out, err = run.communicate(timeout=30)
    os.unlink(path)
    return came // (8 + len(lead) + len(data)), run.returncode, err, sent


def all_arrives_at_the_end():
    """What a run sent before its end arrives, though the peer is slow and sends something meanwhile."""
    rows = (("--push", PULL, b""), ("--pair", PAIR, b""), ("--pair1", PAIR1, HOP), ("--bus", BUS, b""))
    tried = [(slow_reader((option,), role, lead, byte), byte) for option, role, lead in rows for byte in (False, True)]
    return all(row == (12, 0, b"", byte) for row, byte in tried), f"{[row for row, _ in tried]}"


def a_peer_that_never_shuts_holds_nobody_longer():
    """A peer that doesn't close holds a run for some two seconds, which says so."""
    port = free_port()
    run = start("--push", "--listen", address(port), "--data", "a", "--count", "1")
    peer = connect(port)
    peer.sendall(greeting(PULL))
    begun = time.time()
    out, err = run.communicate(timeout=30)
    took = time.time() - begun
    came = read_all(peer, 8 + 9)
    peer.close()
    return (run.returncode == 0 and 1 < took < 4 and came[8:] == frame(b"a")
            and b"did not close" in err), f"{took:.2f} s, status {run.returncode}, {err!r}"


def long_messages_leave_no_memory():
    """Forty WebSocket links that each brought a message of 1 MiB leave at most 4 MiB in use."""
    port = free_port()
    run = ws.listening(OURS, port, "--pull")
    peers = [client(port, b"pull") for _ in range(40)]
    time.sleep(0.5)
    before = memory(run)
    body = ws.frame(bytes(1 << 20))
    for peer in peers:
        peer.sendall(body)
    time.sleep(1)
    # A buffer goes at a message after the long one is taken, which a busy machine may do late.
    for _ in range(10):
        for peer in peers:
            peer.sendall(ws.frame(b"a"))
        time.sleep(1.5)
        grown = memory(run) - before
        if grown < 4096:
            break
    for peer in peers:
        peer.close()
    stop(run)
    return grown < 4096, f"{before} KiB before, {grown} more after"


def processor_time(run):
    with open(f"/proc/{run.pid}/stat") as f:
        fields = f.read().rsplit(")", 1)[1].split()
    return (int(fields[11]) + int(fields[12])) / os.sysconf("SC_CLK_TCK")


def sends_much(listens, peer_of):
    """Processor time for 32 MiB to a peer with a small window."""
    port = free_port()
    path = f"/tmp/sends-much-{os.getpid()}"
    with open(path, "wb") as f:
        f.write(bytes(1_000_000))
    run = start("--push", "--listen", listens(port), "--file", path, "--count", "32", "--interval", "0")
    connect(port).close()
    peer = peer_of(port)
    # Of smaller windows some systems pass a few kilobytes every 40 ms, whoever sends.
    peer.setsockopt(socket.SOL_SOCKET, socket.SO_RCVBUF, 65536)
    peer.settimeout(20)
    came, used = 0, 0
    while came < 32_000_000:
        piece = peer.recv(65536)
        if not piece:
            break
        came += len(piece)
        used = processor_time(run) if came < 31_000_000 else used
    peer.close()
    run.communicate(timeout=20)
    os.unlink(path)
    return used


def tcp_peer(port):
    peer = connect(port)
    peer.sendall(greeting(PULL))
    read_all(peer, 8)
    return peer


def much_over_websocket():
    """32 MB to a small window take at most thrice the processor time that they take over TCP, and 0.1 s."""
    tcp = sends_much(address, tcp_peer)
    over = sends_much(ws.address, lambda port: client(port, b"push"))
    return over <= 3 * tcp + 0.1, f"{over:.2f} s over WebSocket, {tcp:.2f} s over TCP"


def a_close_frame_is_answered():
    """A close frame is answered by one before the link ends, and a ping by a pong at once."""
    port = free_port()
    run = ws.listening(OURS, port, "--pull")
    peer = client(port, b"pull")
    peer.settimeout(5)
    time.sleep(0.3)
    times = []
    for i in range(10):
        begun = time.time()
        peer.sendall(ws.frame(b"a%d" % i, first=0x89))
        pong = ws.read_frame(peer)
        times.append((time.time() - begun) * 1000)
        if pong is None or pong[0] != 0x8A or pong[2] != b"a%d" % i:
            stop(run)
            return False, f"{pong}"
        time.sleep(0.15)
    peer.sendall(ws.frame(struct.pack(">H", 1000), first=0x88))
    answer = ws.read_frame(peer)
    rest = peer.recv(100)
    stop(run)
    return (answer is not None and answer[0] == 0x88 and answer[2][:2] == struct.pack(">H", 1000) and rest == b""
            and statistics.median(times) < 3), f"{answer}, then {rest!r}; pongs after {statistics.median(times):.1f} ms"


def silent_links_hold_one_port():
    """300 silent links at one port hold no other port of the run."""
    quiet, port = free_port(), free_port()
    run = start("--pull", "--listen", address(quiet), "--listen", address(port), "--ascii", "--count", "1")
    peers = [connect(quiet) for _ in range(300)]
    time.sleep(0.5)
    begun = time.time()
    good = connect(port)
    good.sendall(greeting(PUSH) + frame(b"hello"))
    out, _ = run.communicate(timeout=20)
    took = time.time() - begun
    for peer in [*peers, good]:
        peer.close()
    return out == b"hello\n" and took < 3, f"{took:.2f} s"


def message_of(port, role, size):
    """The first message that a pair sends to a peer which waits for it; none where it ends the link."""
    with connect(port) as peer:
        peer.settimeout(2)
        try:
            peer.sendall(greeting(role))
            return read_all(peer, 8 + size)[8:]
        except OSError:
            return b""


def takes_its_next_peer(option, role, lead):
    """How long it takes until a pair has another peer; or what came, where that was wrong."""
    port = free_port()
    run = start(option, "--listen", address(port), "--data", "x", "--interval", "1", "--count", "9")
    wanted = frame(lead + b"x")
    first = connect(port)
    first.sendall(greeting(role) + frame(lead + b"a"))
    began = read_all(first, 8 + len(wanted))[8:]
    first.close()
    closed = time.time()
    refused = message_of(port, role, len(wanted))
    came = b""
    while not came and time.time() - closed < 8:
        came = message_of(port, role, len(wanted))
    took = time.time() - closed
    stop(run)
    well = (began, refused, came) == (wanted, b"", wanted)
    return well, f"{option} {took:.1f} s" if well else f"{option} {began} {refused} {came}"


def a_pair_takes_its_next_peer():
    """A pair that only sends keeps a message of its peer, and takes another once it has sent to one that is gone."""
    tried = [takes_its_next_peer(*version) for version in PAIR_VERSIONS]
    return all(well for well, _ in tried), "refused at once, taken after the first had closed: " + ", ".join(
        told for _, told in tried)


def input_that_does_not_wait():
    """Standard input that doesn't wait is waited for."""
    port = free_port()
    r, w = os.pipe()
    fcntl.fcntl(r, fcntl.F_SETFL, fcntl.fcntl(r, fcntl.F_GETFL) | os.O_NONBLOCK)
    pull = begin(OURS, "--pull", "--listen", address(port), "--ascii", "--count", "1")
    push = begin(OURS, "--push", "--dial", address(port), "--file", "-", stdin=r)
    os.close(r)
    time.sleep(0.5)
    os.write(w, b"hel")
    time.sleep(0.3)
    os.write(w, b"lo")
    os.close(w)
    out, _ = pull.communicate(timeout=20)
    _, err = push.communicate(timeout=20)
    return (out, push.returncode, err) == (b"hello\n", 0, b""), f"{out!r} {push.returncode} {err!r}"


def a_send_timeout_ends_the_run():
    """A push whose peer reads nothing ends at status 2 once as long as its send timeout has passed again."""
    port = free_port()
    path = f"/tmp/send-timeout-{os.getpid()}"
    with open(path, "wb") as f:
        f.write(bytes(1_000_000))
    run = start("--push", "--listen", address(port), "--file", path, "--count", "0", "--interval", "0",
                "--send-timeout", "1")
    peer = connect(port)
    peer.sendall(greeting(PULL))
    begun = time.time()
    try:
        _, err = run.communicate(timeout=30)
        took = time.time() - begun
    except subprocess.TimeoutExpired:
        took, err = 99, b""
    peer.close()
    stop_all()
    os.unlink(path)
    return run.returncode == 2 and took < 7, f"{took:.1f} s, status {run.returncode}, {err!r}"


CHECKS = (a_flood_holds_nobody_up, a_flood_does_not_hold_a_deadline, all_arrives_at_the_end,
          a_peer_that_never_shuts_holds_nobody_longer, long_messages_leave_no_memory, much_over_websocket,
          a_close_frame_is_answered, a_pair_takes_its_next_peer, silent_links_hold_one_port, input_that_does_not_wait, a_send_timeout_ends_the_run)


def main():
    wanted = sys.argv[1:]
    failed = 0
    for check in CHECKS:
        if wanted and check.__name__ not in wanted:
            continue
        try:
            well, told = check()
        except Exception as e:  # noqa: BLE001
            well, told = False, repr(e)
        stop_all()
        print(f"{'ok  ' if well else 'FAIL'} {check.__name__}: {told}", flush=True)
        failed += not well
    return failed


if __name__ == "__main__":
    sys.exit(main())
