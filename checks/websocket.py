#!/usr/bin/env python3
"""Tries the built nngcat over WebSocket: with a plain client and a plain server written here, and with Debian's nngcat.

Each check prints a line; the status is the number of checks that failed.
"""
import base64
import hashlib
import os
import socket
import statistics
import subprocess
import sys
import time

from outside import OURS, THEIRS, begin, closed, connect, free_port, read_all, said, start, stop

GUID = b"258EAFA5-E914-47DA-95CA-C5AB0DC85B11"
NONCE = b"dGhlIHNhbXBsZSBub25jZQ=="


def address(port):
    return f"ws://127.0.0.1:{port}/x"


def listening(program, port, *words):
    run = begin(program, *words, "--listen", address(port))
    connect(port).close()
    return run


def request(name, port, key=NONCE, path=b"/x"):
    """The head that a plain client sends."""
    return (b"GET %s HTTP/1.1\r\nHost: 127.0.0.1:%d\r\nUpgrade: websocket\r\nConnection: Upgrade\r\n"
            b"Sec-WebSocket-Key: %s\r\nSec-WebSocket-Version: 13\r\nSec-WebSocket-Protocol: %s.sp.nanomsg.org\r\n\r\n"
            % (path, port, key, name))


def accept_of(key):
    return base64.b64encode(hashlib.sha1(key + GUID).digest())


def head(peer):
    """What comes up to the first empty line."""
    came = b""
    while not came.endswith(b"\r\n\r\n"):
        piece = peer.recv(1)
        if not piece:
            break
        came += piece
    return came


def frame(body, first=0x82, mask=b"\x37\xfa\x21\x3d"):
    """One frame, masked unless there is no mask."""
    size = len(body)
    bit = 0x80 if mask else 0
    if size < 126:
        lead = bytes([first, bit | size])
    elif size < 65536:
        lead = bytes([first, bit | 126]) + size.to_bytes(2, "big")
    else:
        lead = bytes([first, bit | 127]) + size.to_bytes(8, "big")
    if not mask:
        return lead + body
    return lead + mask + bytes(b ^ mask[i % 4] for i, b in enumerate(body))


def read_frame(peer):
    """The first byte of the next frame, whether it was masked, and its body."""
    lead = read_all(peer, 2)
    if len(lead) < 2:
        return None
    size = lead[1] & 127
    if size > 125:
        size = int.from_bytes(read_all(peer, 2 if size == 126 else 8), "big")
    masked = lead[1] > 127
    mask = read_all(peer, 4) if masked else b"\0\0\0\0"
    body = read_all(peer, size)
    return lead[0], masked, bytes(b ^ mask[i % 4] for i, b in enumerate(body))


def client(port, name):
    """A plain client, opened."""
    peer = connect(port)
    peer.settimeout(20)
    peer.sendall(request(name, port))
    return peer, head(peer)


def answers_a_plain_client():
    """A pull of ours gets whole and fragmented messages, answers a ping between fragments, and sends no mask."""
    port = free_port()
    run = listening(OURS, port, "--pull", "--ascii", "--count", "3")
    peer, answer = client(port, b"pull")
    peer.sendall(frame(b"Hello"))
    peer.sendall(frame(b"fra", 0x02) + frame(b"hey", 0x89) + frame(b"gment", 0x80))
    pong = read_frame(peer)
    peer.sendall(frame(b"x" * 300))
    outs, well = said([run])
    peer.close()
    right = (answer.startswith(b"HTTP/1.1 101 ") and b"Sec-WebSocket-Accept: " + accept_of(NONCE) in answer
             and b"Sec-WebSocket-Protocol: pull.sp.nanomsg.org" in answer
             and pong == (0x8a, False, b"hey") and outs == [b"Hello\nfragment\n" + b"x" * 300])
    return well and right, f"{answer[:40]!r}, {pong}, {outs[0][:40]!r}"


def serving():
    """A plain server, and its port."""
    listener = socket.socket()
    listener.setsockopt(socket.SOL_SOCKET, socket.SO_REUSEADDR, 1)
    listener.settimeout(20)
    listener.bind(("127.0.0.1", 0))
    listener.listen(8)
    return listener, listener.getsockname()[1]


def served(listener, name):
    """The next link of a plain server, opened; the head that came, and its key."""
    peer, _ = listener.accept()
    peer.settimeout(20)
    came = head(peer)
    key = [line for line in came.split(b"\r\n") if line.startswith(b"Sec-WebSocket-Key: ")][0].split(b": ")[1]
    peer.sendall(b"HTTP/1.1 101 Switching Protocols\r\nUpgrade: websocket\r\nConnection: Upgrade\r\n"
                 b"Sec-WebSocket-Accept: " + accept_of(key) + b"\r\nSec-WebSocket-Protocol: " + name + b".sp.nanomsg.org\r\n\r\n")
    return peer, came, key


def asks_a_plain_server():
    """A push of ours dials a plain server: its head, and masked frames whose masks differ."""
    listener, port = serving()
    with listener:
        run = start("--push", "--dial", address(port), "--data", "hello", "--count", "2")
        peer, came, key = served(listener, b"pull")
    frames = [read_frame(peer) for _ in range(2)]
    _, well = said([run])
    peer.close()
    right = (came == request(b"pull", port, key) and len(base64.b64decode(key)) == 16
             and frames == [(0x82, True, b"hello")] * 2)
    return well and right, f"{came[:30]!r}, {frames}"


def ends(peer, bytes_):
    """Returns whether the other side ends the link after these bytes, while this one keeps its own half open."""
    peer.settimeout(10)
    try:
        peer.sendall(bytes_)
        while peer.recv(4096):
            pass
        return True
    except socket.timeout:
        return False
    except ConnectionError:
        return True


LONGEST = 1_048_576


def broken_clients():
    """Each of these ends only its own link, the last but one since it is cut; the next client is served."""
    wrong = [
        frame(b"bare", mask=b""),
        frame(b"reserved", 0xc2),
        frame(b"text", 0x81),
        b"\x82\xff" + (1 << 40).to_bytes(8, "big") + b"mask",
        frame(b"z" * (LONGEST + 1)),
        frame(b"z" * LONGEST, 0x02) + frame(b"z", 0x80),
        frame(b"\x03\xe8", 0x88),
        frame(b"part", 0x02) + frame(b"\x03\xe8", 0x88),
        frame(b"", 0x80),
    ]
    cut = b"\x82\xfe\x00\x10mask" + b"cut"
    port = free_port()
    run = listening(OURS, port, "--pull", "--ascii", "--count", str(len(wrong) + 1))
    kept = []
    for number, bytes_ in enumerate(wrong + [cut]):
        peer, _ = client(port, b"pull")
        if bytes_ == cut:
            peer.sendall(cut)
            peer.shutdown(socket.SHUT_WR)
            bytes_ = b""
        if not ends(peer, bytes_):
            kept.append(number)
        peer.close()
        good, _ = client(port, b"pull")
        good.sendall(frame(b"after %d" % number))
        if number < len(wrong):
            time.sleep(0.1)
        good.close()
    outs, well = said([run])
    right = outs == [b"\n".join(b"after %d" % n for n in range(len(wrong) + 1))]
    return well and right and not kept, f"{outs}, not ended: {kept}"


def broken_servers():
    """A pull of ours dials a plain server: fragments with a ping between them are one message, and the pong is masked. Each
    of the others ends its own link, and ours dials again."""
    wrong = [
        frame(b"masked"),
        frame(b"reserved", 0xc2, b""),
        frame(b"text", 0x81, b""),
        b"\x82\x7f" + (1 << 40).to_bytes(8, "big"),
        frame(b"z" * (LONGEST + 1), mask=b""),
        frame(b"z" * LONGEST, 0x02, b"") + frame(b"z", 0x80, b""),
        frame(b"\x03\xe8", 0x88, b""),
        frame(b"part", 0x02, b"") + frame(b"\x03\xe8", 0x88, b""),
        frame(b"", 0x80, b""),
    ]
    listener, port = serving()
    kept = []
    with listener:
        run = start("--pull", "--dial", address(port), "--ascii", "--count", "3")
        peer, _, first = served(listener, b"push")
        peer.sendall(frame(b"fra", 0x02, b"") + frame(b"hey", 0x89, b"") + frame(b"gment", 0x80, b""))
        pong = read_frame(peer)
        keys = {first}
        for number, bytes_ in enumerate(wrong):
            if not ends(peer, bytes_):
                kept.append(number)
            peer.close()
            peer, _, key = served(listener, b"push")
            keys.add(key)
        # The longest one comes late: until then nobody reads what ours prints.
        peer.sendall(frame(b"y" * LONGEST, mask=b"") + frame(b"last", mask=b""))
        outs, well = said([run])
        peer.close()
    right = outs == [b"fragment\n" + b"y" * LONGEST + b"\nlast"] and pong == (0x8a, True, b"hey")
    return well and right and not kept and len(keys) == len(wrong) + 1, f"{len(outs[0])} bytes, {pong}, {len(keys)} keys, not ended: {kept}"


def most_memory(pid):
    """The most KiB of memory that the process had so far; 0 where the machine doesn't tell."""
    try:
        with open(f"/proc/{pid}/status") as status:
            return next((int(line.split()[1]) for line in status if line.startswith("VmHWM:")), 0)
    except OSError:
        return 0


def pings_that_nobody_reads():
    """A peer that pings and reads nothing takes little memory: 40 MB of pings, of which no pong is read."""
    port = free_port()
    run = listening(OURS, port, "--pull", "--ascii", "--count", "1")
    peer, _ = client(port, b"pull")
    before = most_memory(run.pid)
    chunk = frame(b"p" * 100, 0x89) * 1000
    for _ in range(400):
        peer.sendall(chunk)
    grown = most_memory(run.pid) - before
    peer.sendall(frame(b"after"))
    outs, well = said([run])
    peer.close()
    return well and outs == [b"after"] and grown < 8192, f"{outs}, {grown} KiB"


HEADS = 250
CHANGES = [
    (b"GET /x HTTP/1.1", [
        b"POST /x HTTP/1.1", b"get /x HTTP/1.1", b"HEAD /x HTTP/1.1", b"GET /x HTTP/1.0", b"GET /x HTTP/1.2", b"GET /x HTTP/2.0",
        b"GET /x http/1.1", b"GET /x", b"GET", b"", b"GET /y HTTP/1.1", b"GET /x/ HTTP/1.1", b"GET / HTTP/1.1", b"GET /X HTTP/1.1",
        b"GET //x HTTP/1.1", b"GET /x?a HTTP/1.1", b"GET /%78 HTTP/1.1", b"GET /x HTTP/1.1 ", b"\x00GET /x HTTP/1.1", b"G\xffT /x HTTP/1.1"]),
    (b"Host: HERE", [None, b"Host", b"Host : HERE", b"Ho st: HERE", b"Host:\x00", b": HERE"]),
    (b"Upgrade: websocket", [
        None, b"Upgrade: h2c", b"Upgrade: web socket", b"Upgrade: websockets", b"Upgrade: websocket/13", b"Upgrade:", b"Upgrade: a\r\n websocket"]),
    (b"Connection: Upgrade", [
        None, b"Connection: close", b"Connection: keep-alive", b"Connection: Upgrades", b"Connection: Up grade", b"Connection: Upgrade;"]),
    (b"Sec-WebSocket-Key: " + NONCE, [
        None, b"Sec-WebSocket-Key:", b"Sec-WebSocket-Key: dGhl", b"Sec-WebSocket-Key: " + NONCE[:-2], b"Sec-WebSocket-Key: " + NONCE[:-1],
        b"Sec-WebSocket-Key: " + NONCE + b"=", b"Sec-WebSocket-Key: dGhlIHNhbXBsZSBub25jZR==", b"Sec-WebSocket-Key: dGhlIHNhbXBsZSBub25j",
        b"Sec-WebSocket-Key: dGhlIHNhbXBsZSBub25jZSE=", b"Sec-WebSocket-Key: dGhlIHNhbXBsZSBub25j!Q==",
        b"Sec-WebSocket-Key: a, " + NONCE, b"Sec-WebSocket-Key: " + NONCE + b"\r\nSec-WebSocket-Key: " + NONCE,
        b"Sec-WebSocket-Key : " + NONCE]),
    (b"Sec-WebSocket-Version: 13", [
        None, b"Sec-WebSocket-Version: 12", b"Sec-WebSocket-Version: 8", b"Sec-WebSocket-Version: 013", b"Sec-WebSocket-Version: 13, 8",
        b"Sec-WebSocket-Version: +13", b"Sec-WebSocket-Version:", b"Sec-WebSocket-Version: 13\r\nSec-WebSocket-Version: 13"]),
    (b"Sec-WebSocket-Protocol: pull.sp.nanomsg.org", [
        None, b"Sec-WebSocket-Protocol: push.sp.nanomsg.org", b"Sec-WebSocket-Protocol: PULL.sp.nanomsg.org", b"Sec-WebSocket-Protocol: pull",
        b"Sec-WebSocket-Protocol: pull.sp.nanomsg.org;", b"Sec-WebSocket-Protocol: pull.sp.nanomsg.com", b"Sec-WebSocket-Protocol:"]),
]


def changed(port, changes):
    """The head of a plain client with these lines in place of its own, or without the line where there is none."""
    lines = [changes.get(place, line) for place, (line, _) in enumerate(CHANGES)]
    return b"\r\n".join(line for line in lines if line is not None).replace(b"HERE", b"127.0.0.1:%d" % port) + b"\r\n\r\n"


def wrong_heads(port):
    """Heads that are whole and wrong: with one line changed, and then with two."""
    one = [{place: line} for place, (_, others) in enumerate(CHANGES) for line in others]
    two = [{**a, **b} for a in one for b in one if max(a) < min(b)]
    long = changed(port, {})[:-2]
    heads = [long + b"A: b\r\n" * 64 + b"\r\n", long.replace(b"\r\n", b"\n\n") + b"\r\n\r\n", b"A" * 9000, b"\r\n\r\n"]
    return heads + [changed(port, c) for c in one + two[:: len(two) // (HEADS - len(one) - len(heads))]][: HEADS - len(heads)]


def unfinished_heads(port):
    """Heads that have no blank line yet."""
    good = changed(port, {})
    return [good.replace(b"\r\n", b"\n"), b"\x16\x03\x01\x02\x00\x01" * 40] + [good[: 4 * n] for n in range(1, 49)]


def answer_and_end(port, bytes_):
    """What is read after these bytes, and whether the link ends within two seconds."""
    peer = connect(port)
    peer.settimeout(2)
    came = b""
    try:
        peer.sendall(bytes_)
        while piece := peer.recv(100):
            came += piece
        return came, True
    except socket.timeout:
        return came, False
    except ConnectionError:
        return came, True
    finally:
        peer.close()


def left_alone(peer):
    """Returns whether nothing came over the link."""
    peer.setblocking(False)
    try:
        return not peer.recv(100)
    except (BlockingIOError, ConnectionError):
        return True
    finally:
        peer.close()


def hostile_heads():
    """Each of 250 wrong heads gets no answer and ends its link within two seconds; 50 that have no end yet, and a hundred
    links that send the beginning of a good one, get no answer and hold nobody up."""
    port = free_port()
    run = listening(OURS, port, "--pull", "--ascii", "--count", "1")
    silent = []
    for bytes_ in unfinished_heads(port) + [request(b"pull", port)[:40]] * 100:
        peer = connect(port)
        peer.sendall(bytes_)
        silent.append(peer)
    heads = wrong_heads(port)
    bad = [head_ for head_ in heads if answer_and_end(port, head_) != (b"", True)]
    begun = time.time()
    peer, _ = client(port, b"pull")
    alone = all([left_alone(other) for other in silent])
    peer.sendall(frame(b"served"))
    outs, well = said([run])
    took = time.time() - begun
    peer.close()
    return well and outs == [b"served"] and alone and not bad and took < 5, f"{len(heads)} heads, {outs}, {took:.2f} s, {bad}"


PAIRS = [
    ("push", "pull", ("--data", "m", "--interval", "1"), ("--ascii", "--count", "1")),
    ("pub", "sub", ("--data", "m", "--interval", "1"), ("--ascii", "--count", "1", "--subscribe", "")),
    ("pair", "pair", ("--data", "m", "--interval", "1"), ("--ascii", "--count", "1")),
    ("pair1", "pair1", ("--data", "m", "--interval", "1"), ("--ascii", "--count", "1")),
    ("bus", "bus", ("--data", "m", "--interval", "1"), ("--ascii", "--count", "1")),
    ("rep", "req", ("--data", "m", "--ascii"), ("--data", "q", "--interval", "1", "--ascii", "--count", "1")),
    ("respondent", "surveyor", ("--data", "m", "--ascii"), ("--data", "q", "--interval", "1", "--ascii", "--count", "1", "--recv-timeout", "1")),
]


def option(program, role):
    return "--pair0" if role == "pair" and program == THEIRS else "--" + role


def over_websocket(giver, taker, role, other, gives, takes, taker_listens):
    """What the taker prints, and what the giver does. The taker ends by itself where it is ours, else after its first
    line."""
    port = free_port()
    takes = [w for w in takes if w != ""] if taker == OURS else list(takes)
    if "--subscribe" in takes and taker == OURS:
        takes.remove("--subscribe")
    one = lambda end: begin(taker, option(taker, other), *takes, end, address(port))
    two = lambda end: begin(giver, option(giver, role), *gives, end, address(port))
    if taker == THEIRS and other == "surveyor":
        takes = list(takes) + ["--delay", "1"]
    # Nng's command gives up where nobody listens yet.
    if taker_listens:
        one = one("--listen")
        time.sleep(0.5)
        two = two("--dial")
    else:
        two = two("--listen")
        time.sleep(0.5)
        one = one("--dial")
    try:
        out, _ = one.communicate(timeout=25)
    except subprocess.TimeoutExpired:
        out = b"nothing in time"
    stop(one)
    two.terminate()
    printed, _ = two.communicate(timeout=25)
    return first_line(out), first_line(printed)


def first_line(out):
    return out.strip().split(b"\n")[0]


def each_role_with_theirs():
    """Each role, ours to nng's and nng's to ours, each listening in turn; of those that answer also what they print."""
    told = []
    for role, other, gives, takes in PAIRS:
        asked = b"q" if role in ("rep", "respondent") else b""
        for giver, taker in ((OURS, THEIRS), (THEIRS, OURS)):
            for listens in (True, False):
                said_ = over_websocket(giver, taker, role, other, gives, takes, listens)
                if said_ != (b"m", asked):
                    told.append((role, "ours" if giver == OURS else "theirs", listens, said_))
    return not told, f"{4 * len(PAIRS)} runs, wrong: {told}"


def push_rate(program, count):
    """Messages a second of 1 KiB that a push sends to a plain client, which drains them unread."""
    port = free_port()
    run = subprocess.Popen([program, "--push", "--listen", address(port), "--data", "y" * 1024, "--count", str(count)])
    connect(port).close()
    peer, _ = client(port, b"push")
    wanted, came = count * (4 + 1024), 0
    buffer = bytearray(1 << 20)
    begun = time.time()
    while came < wanted:
        n = peer.recv_into(buffer)
        if n == 0:
            break
        came += n
    took = time.time() - begun
    run.wait(timeout=60)
    peer.close()
    return came / (4 + 1024) / took


def measure():
    """Messages a second of 1 KiB into a pull and out of a push, and round trips of 8 bytes with a rep, beside nng's."""
    for name, program in (("ours", OURS), ("nng 1.5.2", THEIRS)):
        if not program:
            continue
        port = free_port()
        count = 100_000 if program == OURS else 20_000
        run = subprocess.Popen([program, "--pull", "--listen", address(port), "--raw", "--count", str(count)],
                               stdout=subprocess.DEVNULL)
        connect(port).close()
        peer, _ = client(port, b"pull")
        chunk = frame(b"y" * 1024) * 100
        begun = time.time()
        for _ in range(count // 100):
            peer.sendall(chunk)
        closed(peer)
        run.wait(timeout=120)
        print(f"pull over WebSocket, 1 KiB: {name} {count / (time.time() - begun):,.0f} messages/s", flush=True)
        print(f"push over WebSocket, 1 KiB: {name} {push_rate(program, count):,.0f} messages/s", flush=True)
        port = free_port()
        run = begin(program, "--rep", "--listen", address(port), "--data", "12345678")
        connect(port).close()
        peer, _ = client(port, b"rep")
        peer.setsockopt(socket.IPPROTO_TCP, socket.TCP_NODELAY, 1)
        times = []
        for number in range(3000):
            begun = time.perf_counter()
            peer.sendall(frame((0x80000000 | number).to_bytes(4, "big") + b"abcdefgh"))
            read_frame(peer)
            times.append(time.perf_counter() - begun)
        stop(run)
        peer.close()
        print(f"round trip over WebSocket: {name} {statistics.median(times) * 1e6:.1f} microseconds", flush=True)
    return 0


def main():
    if not os.access(OURS, os.X_OK):
        print("skipped: crates/nngcat/out/nngcat isn't built")
        return 0
    if sys.argv[1:] == ["measure"]:
        return measure()
    checks = [answers_a_plain_client, asks_a_plain_server, broken_clients, broken_servers, pings_that_nobody_reads, hostile_heads]
    if THEIRS:
        checks.append(each_role_with_theirs)
    failed = 0
    for check in checks:
        if sys.argv[1:] and check.__name__ not in sys.argv[1:]:
            continue
        try:
            well, told = check()
        except Exception as e:
            well, told = False, repr(e)
        failed += not well
        print(f"{'ok    ' if well else 'FAILED'} {check.__name__}: {told}", flush=True)
    return failed


if __name__ == "__main__":
    sys.exit(main())
