#!/usr/bin/env python3
"""Tries the built nngcat beside Debian's in the order in which ends come and go: who is there first, who is killed and
comes back, and several ends of one run.

Most checks go over each transport that OVER names, of tcp and ipc. Skips what is missing. Each check prints a line for
each transport; the status is the number of lines that failed.
"""
import os
import socket
import sys
import time
from concurrent.futures import ThreadPoolExecutor

from outside import (OURS, THEIRS, address, answered, begin, free_port, listening, reads, run_checks, said, shows, stop)


def dialing(program, port, *words):
    """A run that dials. Debian's gives up where nobody listens yet, unless it has --async."""
    return begin(program, *words, *(("--async",) if program == THEIRS else ()), "--dial", address(port))


PULL = ("--pull", "--ascii", "--count", "1")
PUSH = ("--push", "--data", "hello")


def dials_first(dialer, server, words, others):
    """The dialer is there a second and a half before anybody listens, and waits; then a message goes over."""
    port = free_port()
    early = dialing(dialer, port, *words)
    time.sleep(1.5)
    waits = early.poll() is None
    late = begin(server, *others, "--listen", address(port))
    outs, well = said([early, late])
    return well and waits and b"".join(outs) == b"hello", outs


def dialer_comes_first():
    """The dialer is started before the listener, ours and Debian's, as the one that pushes and as the one that pulls."""
    tried = [dials_first(*pair, *words) for pair in ((OURS, THEIRS), (THEIRS, OURS))
             for words in ((PUSH, PULL), (PULL, PUSH))]
    return all(well for well, _ in tried), f"{[outs for _, outs in tried]}"


# Of each protocol but pipeline: a run that sends `hello`, and may go on, and one that prints it and ends.
BOTH = (
    (("--rep", "--data", "hello"),
     ("--req", "--data", "ping", "--ascii", "--count", "1", "--recv-timeout", "20", "--interval", "20")),
    (("--respondent", "--data", "hello"), ("--surveyor", "--data", "who", "--ascii", "--interval", "2", "--count", "3")),
    (("--pub", "--data", "hello", "--interval", "1"), ("--sub", "--ascii", "--count", "1")),
    (("--bus", "--data", "hello", "--interval", "1"), ("--bus", "--ascii", "--count", "1")),
    (("--pair0", "--data", "hello", "--interval", "1"), ("--pair0", "--ascii", "--count", "1")),
    (("--pair1", "--data", "hello", "--interval", "1"), ("--pair1", "--ascii", "--count", "1")),
)


def takes_hello(dialer, server, sends, takes, taker_dials):
    """The dialer is there a second and a half before anybody listens; `hello` comes over, once or a few times."""
    port = free_port()
    early = dialing(dialer, port, *(takes if taker_dials else sends))
    time.sleep(1.5)
    waits = early.poll() is None
    late = begin(server, *(sends if taker_dials else takes), "--listen", address(port))
    taker, sender = (early, late) if taker_dials else (late, early)
    outs, well = said([taker])
    stop(sender)
    return well and waits and outs[0] and not outs[0].replace(b"\n", b"").replace(b"hello", b""), outs


def all_at_once(check, rows):
    """The check of each row, some of them at the same time."""
    with ThreadPoolExecutor(6) as pool:
        tried = list(pool.map(lambda row: check(*row), rows))
    return all(well for well, _ in tried), f"{[outs for _, outs in tried]}"


def dialers_of_each_role_come_first():
    """The dialer is started before the listener, ours and Debian's, in each role of the other protocols."""
    return all_at_once(takes_hello, [(*pair, sends, takes, taker_dials) for pair in ((OURS, THEIRS), (THEIRS, OURS))
                                     for sends, takes in BOTH for taker_dials in (True, False)])


def nobody_listens():
    """A dial to a port where nobody listens is no fault: timeouts end the run; and a port that is listened at is served
    beside one that isn't yet, which is served when it is."""
    told = []
    for words, status in ((("--pull", "--recv-timeout", "1"), 0), (("--push", "--data", "d", "--send-timeout", "1"), 2)):
        run = begin(OURS, *words, "--dial", address(free_port()))
        out, err = run.communicate(timeout=20)
        told.append(run.returncode == status and out == b"" and (err == b"") == (status == 0))
    ports = [free_port() for _ in range(2)]
    first = listening(THEIRS, ports[0], "--push", "--data", "first")
    run = begin(OURS, "--pull", "--ascii", "--count", "2", *(word for port in ports for word in ("--dial", address(port))))
    told.append(reads(run, b"first\n"))
    second = begin(THEIRS, "--push", "--data", "second", "--listen", address(ports[1]))
    outs, well = said([run, first, second])
    told.append(well and outs[0] == b"second")
    return all(told), f"{told}"


def there(program, port, listens, *words):
    """A run of the program, that listens there or dials it."""
    return (listening if listens else dialing)(program, port, *words)


def comes_back_to_our_pull(listens):
    """Debian's push is killed and started again while our pull stays, which listens or dials."""
    port = free_port()
    run = there(OURS, port, listens, "--pull", "--ascii", "--count", "2")
    # It sends once and stays for an hour.
    first = there(THEIRS, port, not listens, "--push", "--data", "one", "--interval", "3600", "--count", "2")
    came = reads(run, b"one\n")
    stop(first)
    time.sleep(0.5)
    waits = run.poll() is None
    second = there(THEIRS, port, not listens, "--push", "--data", "two")
    outs, well = said([run, second])
    return well and came and waits and outs[0] == b"two", outs


def comes_back_to_our_push(listens):
    """Debian's pull is killed and started again while our push stays, which listens or dials."""
    port = free_port()
    run = there(OURS, port, listens, "--push", "--data", "one", "--interval", "1")
    came = []
    for _ in range(3):
        other = there(THEIRS, port, not listens, "--pull", "--raw")
        came.append(reads(other, b"one"))
        stop(other)
        time.sleep(0.2)
    stays = run.poll() is None
    stop(run)
    return all(came) and stays, came


def comes_back_to_our_rep(listens):
    """Debian's requester is killed and started again while our replier stays, which listens or dials."""
    port = free_port()
    run = there(OURS, port, listens, "--rep", "--data", "pong")
    came = []
    for _ in range(3):
        other = there(THEIRS, port, not listens, "--req", "--data", "ping", "--raw", "--interval", "20")
        came.append(reads(other, b"pong"))
        stop(other)
        time.sleep(0.2)
    stays = run.poll() is None
    stop(run)
    return all(came) and stays, came


# Of each protocol but pipeline: what sends on and on whatever --data says, and what prints all that comes.
ON_AND_ON = (
    (("--rep",), ("--req", "--data", "ping", "--raw", "--interval", "1")),
    (("--respondent",), ("--surveyor", "--data", "who", "--raw", "--interval", "2")),
    (("--pub", "--interval", "1"), ("--sub", "--raw")),
    (("--bus", "--interval", "1"), ("--bus", "--raw")),
    (("--pair0", "--interval", "1"), ("--pair0", "--raw")),
    (("--pair1", "--interval", "1"), ("--pair1", "--raw")),
)


def comes_back(sends, takes, ours_takes, listens):
    """Debian's run is killed and started again, each time with another message where it sends, while ours stays."""
    port = free_port()
    run = there(OURS, port, listens, *(takes if ours_takes else (*sends, "--data", "mine")))
    # With a short interval nng's requester gives up at times on a busy machine, with `Cannot set recv timeout`.
    takes = (*takes[:-1], "20") if takes[0] == "--req" else takes
    came = []
    for text in ("first", "second", "third"):
        other = there(THEIRS, port, not listens, *((*sends, "--data", text) if ours_takes else takes))
        came.append(shows(run, text.encode()) if ours_takes else shows(other, b"mine"))
        stop(other)
    stays = run.poll() is None
    stop(run)
    return all(came) and stays, came


def peers_of_each_role_come_back():
    """A process of Debian's is killed and started again while ours stays, which listens or dials, in each role of the
    other protocols."""
    return all_at_once(comes_back, [(*words, ours_takes, listens) for words in ON_AND_ON for ours_takes in (True, False)
                                    for listens in (True, False)])


def peers_come_back():
    """A process of Debian's is killed and started again while ours stays, which listens or dials: as push, pull and req."""
    tried = [check(listens) for check in (comes_back_to_our_pull, comes_back_to_our_push, comes_back_to_our_rep)
             for listens in (True, False)]
    return all(well for well, _ in tried), f"{[outs for _, outs in tried]}"


def five_ends(words, peers):
    """A run of ours with two listeners and three dialers, and a run of Debian's with these words at each of its ends."""
    ports = [free_port() for _ in range(5)]
    others = [listening(THEIRS, port, *peer) for port, peer in list(zip(ports, peers))[2:]]
    ends = [word for n, port in enumerate(ports) for word in ("--listen" if n < 2 else "--dial", address(port))]
    run = begin(OURS, *words, *ends)
    time.sleep(0.5)
    return run, [begin(THEIRS, *peer, "--dial", address(port)) for port, peer in list(zip(ports, peers))[:2]] + others


def five_are_served():
    """Two listeners and three dialers of one run: five of Debian's get what it sends, and it takes what five send."""
    run, others = five_ends(("--bus", "--data", "all", "--interval", "1"),
                            [("--bus", "--ascii", "--count", "1", "--recv-timeout", "20")] * 5)
    outs, well = said(others)
    stop(run)
    run, others = five_ends(("--pull", "--ascii", "--count", "5"), [("--push", "--data", f"hello{n}") for n in range(5)])
    pulled, well2 = said([run, *others])
    right = outs == [b"all"] * 5 and sorted(pulled[0].split(b"\n")) == [b"hello%d" % n for n in range(5)]
    return well and well2 and right, f"{outs}, {pulled[0]}"


def under_way(port):
    """The ports of this machine from which a connection to this one was begun and isn't made."""
    with open("/proc/net/tcp") as table:
        rows = [line.split()[1:4] for line in table][1:]
    return {own for own, peer, state in rows if peer.endswith(f":{port:04X}") and state == "02"}


def a_dial_under_way_is_kept():
    """A connection that isn't made is kept for the next tries, and waits for nobody: another end is served meanwhile."""
    with socket.socket() as full:
        full.bind(("127.0.0.1", 0))
        full.listen(0)
        port, other = full.getsockname()[1], free_port()
        with socket.create_connection(("127.0.0.1", port)):
            listening(THEIRS, other, "--push", "--data", "first")
            run = begin(OURS, "--pull", "--ascii", "--count", "2", "--dial", address(port), "--dial", address(other))
            served = reads(run, b"first\n")
            seen = [under_way(port)]
            for _ in range(3):
                time.sleep(0.3)
                seen.append(under_way(port))
            stop(run)
    return served and len(seen[0]) == 1 and all(it == seen[0] for it in seen), f"{served}, {seen}"


def names_meet():
    """Names within the process: a bus that listens on a name and dials it, without other ends, with two names and beside
    TCP; and dials of a name where nobody listens, which time out."""
    bus = ("--bus", "--listen", "inproc://x", "--data", "m")
    rows = [((*bus, "--dial", "inproc://x", "--count", count), 0) for count in ("1", "3", "100")]
    rows += [((*bus, "--dial", "inproc://x"), 0),
             ((*bus, "--listen", "inproc://y", "--dial", "inproc://y", "--dial", "inproc://x"), 0),
             ((*bus, "--listen", address(free_port()), "--dial", "inproc://x"), 0),
             (("--pull", "--dial", "inproc://x", "--recv-timeout", "1"), 0),
             (("--push", "--dial", "inproc://x", "--data", "d", "--send-timeout", "1"), 2)]
    ended = [(answered(*words)[0], status) for words, status in rows]
    return all(came == wanted for came, wanted in ended), f"{[came for came, _ in ended]}"


def main():
    if not os.access(OURS, os.X_OK):
        print("skipped: crates/nngcat/out/nngcat isn't built")
        return 0
    if not THEIRS:
        print("skipped: no nngcat of nng is installed")
        return 0
    return run_checks((a_dial_under_way_is_kept, names_meet), (dialer_comes_first, dialers_of_each_role_come_first,
                      nobody_listens, peers_come_back, peers_of_each_role_come_back, five_are_served))


if __name__ == "__main__":
    sys.exit(main())
