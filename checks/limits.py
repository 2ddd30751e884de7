#!/usr/bin/env python3
"""Tries receive limits and long messages of the built nngcat: the limit and one byte more, beside Debian's nngcat where
it is installed; 64 MiB without a limit, and what memory they take; sizes that lie.

Prints a line for each check and transport; the status is the number of lines that failed.
"""
import functools
import hashlib
import os
import select
import sys
import tempfile
import time

import websocket
from outside import (HOP, ID, OURS, PAIR1, PUSH, REQ, THEIRS, Transport, address, begin, connect, frame, free_port,
                     greeting, head, is_ipc, is_over, memory, path, read_all, reads, run_checks, said, start, stop,
                     wait_for)

LIMIT = 100
LONG = 64 << 20
MOST = 2_147_483_647
KIB = 1024


def limited(program, limit):
    return ("--recv-max" if program == OURS else "--recv-maxsz", str(limit))


def at(program, end, port):
    """The words for this end. Debian's gives up where nobody listens yet, unless it has --async."""
    return (*(("--async",) if program == THEIRS and end == "--dial" else ()), end, address(port))


def passes(taker, sender, listens):
    """A pull with a limit prints a message of the limit, none of one byte more, and again one of the limit. Each comes
    from a push of its own."""
    port = free_port()
    end, other = ("--listen", "--dial") if listens else ("--dial", "--listen")
    run = begin(taker, "--pull", "--raw", *limited(taker, LIMIT), *at(taker, end, port))
    if listens:
        wait_for(port)
    told = []
    for letter, size in (("a", LIMIT), ("b", LIMIT + 1), ("c", LIMIT)):
        push = begin(sender, "--push", "--data", letter * size, "--interval", "60", *at(sender, other, port))
        if size > LIMIT:
            # What it prints wrongly would come before the next message.
            time.sleep(1)
        elif letter == "a" or not (Transport.now == "ws" and taker == THEIRS and not listens):
            # Debian's doesn't always dial again over WebSocket once a message was too long.
            told.append(reads(run, letter.encode() * size))
        stop(push)
        if is_ipc() and not listens:
            os.unlink(path(port))
    told.append(run.poll() is None)
    stop(run)
    return told


def the_limit_and_one_more():
    """Ours with --recv-max and Debian's with --recv-maxsz, each listening in turn, and each the one that sends."""
    programs = ((OURS, THEIRS), (THEIRS, OURS), (OURS, OURS)) if THEIRS else ((OURS, OURS),)
    told = [passes(*pair, listens) for pair in programs for listens in (True, False)]
    return all(all(each) for each in told), f"{told}"


def ends_by(run, port, role, size, lead):
    """Returns whether the message of a peer ends its link, or is printed where it is within the limit. Its size counts
    what the protocol puts before the body."""
    peer = connect(port)
    peer.settimeout(20)
    peer.sendall(greeting(role) + frame(lead + b"x" * (size - len(lead))))
    read_all(peer, 8)
    over = is_over(peer) if size > LIMIT else reads(run, b"x" * (size - len(lead)))
    peer.close()
    time.sleep(0.2)
    return over


def the_protocols_words_count():
    """What a protocol puts before a body counts too: a hop count, an id. A message of the limit is printed, one byte
    more ends its link, and the next peer is served. So it is with Debian's."""
    rows = ((("--pull",), PUSH, b""), (("--pair1",), PAIR1, HOP), (("--rep", "--data", "y"), REQ, ID))
    told = []
    for program in (OURS, THEIRS):
        for words, role, lead in rows if program else ():
            port = free_port()
            run = begin(program, *words, "--raw", *limited(program, LIMIT), "--listen", address(port))
            wait_for(port)
            told.append([ends_by(run, port, role, size, lead) for size in (LIMIT, LIMIT + 1, LIMIT)])
            stop(run)
    return all(all(each) for each in told), f"{told}"


def within_the_process():
    """A run that sends to itself within the process ends well, though its messages are above the limit. Debian's prints
    them; ours prints none where it sends."""
    words = ("--bus", "--listen", "inproc://x", "--dial", "inproc://x", "--data", "x" * (LIMIT + 1), "--count", "3")
    ended = [begin(OURS, *words, *limited(OURS, LIMIT))]
    if THEIRS:
        ended.append(begin(THEIRS, *words, "--interval", "1", "--recv-timeout", "1", "--raw", *limited(THEIRS, LIMIT)))
    outs, well = said(ended)
    return well and all(out.startswith(b"x" * (LIMIT + 1)) for out in outs[1:]), f"{[len(out) for out in outs]}"


def kib(run, name):
    """A figure of a run's memory in KiB, as the system names it."""
    with open(f"/proc/{run.pid}/status") as lines:
        return next(int(line.split()[1]) for line in lines if line.startswith(name + ":"))


def drained(run, size, told):
    """Reads this many bytes that a run prints, and keeps their digest."""
    digest, left = hashlib.sha256(), size
    while left > 0 and select.select([run.stdout], [], [], 30)[0]:
        piece = os.read(run.stdout.fileno(), min(left, 1 << 20))
        if not piece:
            break
        digest.update(piece)
        left -= len(piece)
    told.append((digest.hexdigest(), left))


@functools.cache
def long_file():
    """A file of LONG bytes that don't repeat soon, and their digest."""
    file = tempfile.NamedTemporaryFile()
    digest = hashlib.sha256()
    for _ in range(LONG >> 20):
        piece = os.urandom(1 << 20)
        digest.update(piece)
        file.write(piece)
    file.flush()
    return file, digest.hexdigest()


def short_comes(sender, pull, port):
    """A message of one byte comes from a push of its own."""
    short = begin(sender, "--push", "--data", "s", "--dial", address(port))
    came = reads(pull, b"s")
    said([short])
    return came


def long_from(sender, taker, watched):
    """One of LONG bytes goes from a push to a pull, both of which stay, and short ones behind it. Returns whether all
    came whole, and of the run that is watched the most memory that it took, and the least afterwards, in KiB."""
    port = free_port()
    file, wanted = long_file()
    pull = begin(taker, "--pull", "--raw", *limited(taker, 0), "--listen", address(port))
    wait_for(port)
    well = short_comes(sender, pull, port)
    push = begin(sender, "--push", "--file", file.name, "--interval", "3600", "--dial", address(port))
    came = []
    drained(pull, LONG, came)
    run, ended = pull if watched == "pull" else push, []
    for _ in range(6):
        well = well and short_comes(sender, pull, port)
        ended.append(memory(run))
        time.sleep(0.5)
    most = kib(run, "VmHWM")
    stop(pull, push)
    return well and came == [(wanted, 0)], most, min(ended)


def long_messages():
    """A message of 64 MiB is pulled by ours and pushed by ours, whole, with Debian's as the other side and with ours.
    It takes at most three times its size; afterwards a pull has at most 8 MiB in use, and a push, which keeps what it
    sends again, its file and 8 MiB."""
    others = (THEIRS, OURS) if THEIRS else (OURS,)
    told, well = [], True
    for other in others:
        for watched, pair in (("pull", (other, OURS)), ("push", (OURS, other))):
            whole, most, left = long_from(*pair, watched)
            bound = (8 << 10) + (LONG // KIB if watched == "push" else 0)
            good = whole and most * KIB <= 3 * LONG and left <= bound
            well = well and good
            told.append(f"{watched} beside {'ours' if other == OURS else 'nng'}: {'whole' if whole else 'not whole'}, "
                        f"at most {most / KIB:.1f} MiB, then {left / KIB:.1f}")
    return well, "; ".join(told)


def greeted(port, role):
    """A plain peer that greets as this role, over each transport."""
    if Transport.now == "ws":
        return websocket.client(port, {PUSH: b"pull", PAIR1: b"pair1"}[role])[0]
    peer = connect(port)
    peer.settimeout(20)
    peer.sendall(greeting(role))
    read_all(peer, 8)
    return peer


def beginning(size):
    """How a message of this size begins."""
    if Transport.now == "ws":
        return b"\x82\xff" + size.to_bytes(8, "big") + b"\0\0\0\0"
    return head(size)


def whole(body):
    return websocket.frame(body) if Transport.now == "ws" else frame(body)


def lies(peers, sent):
    """How many KiB a run takes for each peer that announces the greatest size and sends this many bytes of it, and how
    much more of its address space."""
    port = free_port()
    run = start("--pull", "--raw", "--recv-max", "0", "--listen", address(port))
    wait_for(port)
    held = [greeted(port, PUSH) for _ in range(peers)]
    for peer in held:
        peer.sendall(whole(b"first"))
    reads(run, b"first" * peers)
    time.sleep(0.5)
    before, space = memory(run), kib(run, "VmSize")
    for peer in held:
        peer.sendall(beginning(MOST) + bytes(sent))
    time.sleep(1.5)
    after, space = memory(run), kib(run, "VmSize") - space
    good = greeted(port, PUSH)
    good.sendall(whole(b"after"))
    serves = reads(run, b"after")
    for peer in (*held, good):
        peer.close()
    stop(run)
    return serves, (after - before) / peers, space / peers


def sizes_that_lie():
    """A peer that announces 2,147,483,647 bytes and sends ten, or a million, takes at most 64 KiB beyond what came. All
    of a run take two pages more, or 256 KiB of heap where bodies had to grow."""
    told, well = [], True
    for peers, sent, more in ((1, 10, 8), (64, 10, 8), (1, 1_000_000, 256), (8, 1_000_000, 256)):
        serves, each, space = lies(peers, sent)
        well = well and serves and each <= 64 + sent / KIB + more / peers
        told.append(f"{peers} with {sent}: {each:.1f} KiB each, address space {space:.1f}")
    return well, "; ".join(told)


def one_above_the_greatest():
    """A size of 2 GiB, one more than the greatest, ends its link at once; the next peer is served."""
    port = free_port()
    run = start("--pull", "--raw", "--recv-max", "0", "--listen", address(port))
    wait_for(port)
    with greeted(port, PUSH) as peer:
        peer.sendall(beginning(MOST + 1) + bytes(10))
        over = is_over(peer)
    with greeted(port, PUSH) as peer:
        peer.sendall(whole(b"after"))
        serves = reads(run, b"after")
    stop(run)
    return over and serves, f"{over}, {serves}"


def main():
    if not os.access(OURS, os.X_OK):
        print("skipped: crates/nngcat/out/nngcat isn't built")
        return 0
    both = (the_limit_and_one_more, sizes_that_lie, one_above_the_greatest)
    # Not yet over WebSocket: a push of ours takes six times a message, in one frame, and nng takes frames of 1 MiB.
    return run_checks((within_the_process,), (*both, long_messages, the_protocols_words_count), ws=both)


if __name__ == "__main__":
    sys.exit(main())
