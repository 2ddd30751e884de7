#!/usr/bin/env python3
"""Measures the built nngcat beside Debian's on loopback, in one run: messages a second, latency, memory, idle time, the
printing of large bodies; and a drill of ours.

The other end is a raw peer written here, which floods or drains, so that it isn't the limit; or, in `both_ends`, the same
program. Prints a line for each figure. Words name the parts that are wanted; without words it measures all, what
depends on it over each transport that OVER names, of tcp and ipc.
"""
import os
import resource
import socket
import statistics
import subprocess
import sys
import threading
import time

from outside import (OURS, OVER, PAIR_VERSIONS, PULL, PUSH, REQ, THEIRS, Transport, address, closed, connect, frame,
                     free_port, greeting, head, is_ipc, listener_at, read_all, wait_for)

SIZES = [(16, 2_000_000), (1024, 1_000_000), (65536, 100_000)]
DRILLS = [100_000]
BODIES = 300
FORMS = ("--raw", "--msgpack", "--hex", "--quoted", "--ascii")


def greet(s, role):
    s.sendall(greeting(role))
    if len(read_all(s, 8)) < 8:
        raise OSError("no greeting")


def at_once(s):
    """Each write goes out as it is."""
    if not is_ipc():
        s.setsockopt(socket.IPPROTO_TCP, socket.TCP_NODELAY, 1)


def frames(size, count, lead=b""):
    return frame(lead + b"x" * size) * count


def pull_rate(program, size, count, option="--pull", peer_role=PUSH, lead=b""):
    """Messages a second that a pull, or a run of another role, prints into a file of nothing. Before each body comes
    `lead`."""
    port = free_port()
    run = subprocess.Popen([program, option, "--listen", address(port), "--raw", "--count", str(count)],
                           stdout=subprocess.DEVNULL)
    peer = connect(port)
    greet(peer, peer_role)
    per = max(1, (1 << 20) // len(frames(size, 1, lead)))
    chunk = frames(size, per, lead)
    begun = time.time()
    left = count
    while left > 0:
        n = min(left, per)
        try:
            peer.sendall(chunk if n == per else frames(size, n, lead))
        except OSError:
            break
        left -= n
    # It shuts its side when all is printed.
    closed(peer)
    took = time.time() - begun
    run.wait(timeout=300)
    return count / took


def push_rate(program, size, count, option="--push", peer_role=PULL, lead=b""):
    """Messages a second that a push, or a run of another role, sends."""
    port = free_port()
    with listener_at(port) as listener:
        run = subprocess.Popen([program, option, "--dial", address(port), "--data", "x" * size, "--count", str(count)])
        peer, _ = listener.accept()
        greet(peer, peer_role)
        wanted, came = count * len(frames(size, 1, lead)), 0
        begun = time.time()
        buffer = bytearray(1 << 20)
        while came < wanted:
            n = peer.recv_into(buffer)
            if n == 0:
                break
            came += n
        took = time.time() - begun
        peer.close()
        run.wait(timeout=60)
    return came / len(frames(size, 1, lead)) / took


def latency(program, count=200):
    """Milliseconds from a message to an idle pull to its print, the median."""
    port = free_port()
    run = subprocess.Popen([program, "--pull", "--listen", address(port), "--raw", "--count", str(count)],
                           stdout=subprocess.PIPE)
    peer = connect(port)
    at_once(peer)
    greet(peer, PUSH)
    times = []
    for n in range(count):
        time.sleep(0.005)
        begun = time.time()
        peer.sendall(frames(16, 1))
        came = 0
        while came < 16:
            came += len(os.read(run.stdout.fileno(), 16 - came))
        times.append(time.time() - begun)
    peer.close()
    run.wait(timeout=60)
    return statistics.median(times) * 1000


def between_rate(program, size, count):
    """Messages a second between a push and a pull of one program, which prints them into a file of nothing."""
    port = free_port()
    pull = subprocess.Popen([program, "--pull", "--listen", address(port), "--raw", "--count", str(count)],
                            stdout=subprocess.DEVNULL)
    wait_for(port)
    begun = time.time()
    push = subprocess.Popen([program, "--push", "--dial", address(port), "--data", "x" * size, "--count", str(count)])
    pull.wait(timeout=300)
    took = time.time() - begun
    push.wait(timeout=60)
    return count / took


def trip_rate(server, count):
    """Round trips of 16 bytes a second between a requester of ours and a replier, from the first reply that is printed to
    the last. Debian's requester gives up after a few: `Cannot set recv timeout`."""
    port = free_port()
    replier = subprocess.Popen([server, "--rep", "--listen", address(port), "--data", "fedcba9876543210"])
    wait_for(port)
    run = subprocess.Popen([OURS, "--req", "--dial", address(port), "--data", "0123456789abcdef", "--raw",
                            "--interval", "0", "--count", str(count)], stdout=subprocess.PIPE)
    size, took, _ = read_at_once(run)
    replier.kill()
    replier.wait()
    return (size // 16 - 1) / took


def trip(program, count=10_000):
    """The median of a round trip of 8 bytes in microseconds, of a raw requester and a rep."""
    port = free_port()
    run = subprocess.Popen([program, "--rep", "--listen", address(port), "--data", "12345678"])
    request, reply = (frame(bytes.fromhex("80000001") + body) for body in (b"abcdefgh", b"12345678"))
    times = []
    with connect(port) as peer:
        at_once(peer)
        greet(peer, REQ)
        for _ in range(count):
            begun = time.perf_counter()
            peer.sendall(request)
            came = read_all(peer, len(reply))
            times.append(time.perf_counter() - begun)
            if came != reply:
                raise OSError(f"a wrong reply: {came!r}")
    run.kill()
    run.wait()
    return statistics.median(times) * 1e6


def idle(program, peers=1):
    """Share of a processor in percent, and memory in KiB, of a pull with `peers` peers that send nothing."""
    port = free_port()
    run = subprocess.Popen([program, "--pull", "--listen", address(port), "--raw", "--count", "1"],
                           stdout=subprocess.DEVNULL)
    held = [connect(port) for _ in range(peers)]
    for peer in held:
        greet(peer, PUSH)
    time.sleep(2)
    ticks = os.sysconf("SC_CLK_TCK")

    def used():
        fields = open(f"/proc/{run.pid}/stat").read().rsplit(")", 1)[1].split()
        return (int(fields[11]) + int(fields[12])) / ticks

    before, begun = used(), time.time()
    time.sleep(10)
    share = (used() - before) / (time.time() - begun) * 100
    memory = int([line for line in open(f"/proc/{run.pid}/status") if line.startswith("VmRSS")][0].split()[1])
    held[peers // 2].sendall(frames(16, 1))
    run.wait(timeout=60)
    for peer in held:
        peer.close()
    return share, memory


def read_at_once(run):
    """The number of bytes that a run writes into its pipe, the seconds from the first byte on, and its processor seconds."""
    size, begun = 0, None
    while piece := os.read(run.stdout.fileno(), 1 << 20):
        begun = begun or time.time()
        size += len(piece)
    took = time.time() - begun
    _, status, used = os.wait4(run.pid, 0)
    run.returncode = os.waitstatus_to_exitcode(status)
    run.stdout.close()
    return size, took, used.ru_utime + used.ru_stime


def large_bodies(program, form, count):
    """`read_at_once` of a pull that prints `count` bodies of 1 MiB, which hold all bytes."""
    port = free_port()
    run = subprocess.Popen([program, "--pull", "--listen", address(port), form, "--count", str(count)],
                           stdout=subprocess.PIPE)
    text = head(1 << 20) + bytes(range(256)) * 4096

    def send():
        with connect(port) as peer:
            greet(peer, PUSH)
            for _ in range(count):
                peer.sendall(text)
            peer.recv(1)

    sending = threading.Thread(target=send, daemon=True)
    sending.start()
    told = read_at_once(run)
    sending.join(timeout=60)
    return told


def drill_rate(program, count):
    """Seconds that a drill of `count` messages takes, its processor seconds, and the receives that it begins and races.

    Each round of 64 messages begins 96 receives; those that the main caller begins afterwards aren't counted."""
    before = resource.getrusage(resource.RUSAGE_CHILDREN)
    begun = time.time()
    subprocess.run([program, "--drill", str(count)], stdout=subprocess.DEVNULL, check=True, timeout=300)
    took = time.time() - begun
    after = resource.getrusage(resource.RUSAGE_CHILDREN)
    used = after.ru_utime + after.ru_stime - before.ru_utime - before.ru_stime
    return took, used, 96 * -(-count // 64)


def show_rates(name, rate, programs):
    for size, count in SIZES:
        rates = [(who, rate(p, size, count if p == OURS else count // 10)) for who, p in programs]
        print(f"{name} {size} over {Transport.now}: " + ", ".join(f"{who} {found:,.0f} messages/s" for who, found in rates), flush=True)


def both_ends(programs):
    """Both ends are one program: messages a second. Round trips are those of a requester of ours."""
    show_rates("both ends", between_rate, programs)
    print(f"round trips of 16 bytes over {Transport.now}, ours asks: "
          + ", ".join(f"{name} {trip_rate(p, 20_000):,.0f} a second" for name, p in programs), flush=True)


def show_pairs(_):
    """Pairs of ours of both versions: messages of 16 bytes a second, the median of five runs in turn."""
    for name, rate in (("prints", pull_rate), ("sends", push_rate)):
        found = {option: [] for option, _, _ in PAIR_VERSIONS}
        for option, role, lead in PAIR_VERSIONS * 5:
            found[option].append(rate(OURS, 16, 1_000_000, option, role, lead))
        old, new = (statistics.median(found[option]) for option, _, _ in PAIR_VERSIONS)
        print(f"a pair {name} 16 over {Transport.now}: version 0 {old:,.0f}, version 1 {new:,.0f} messages/s, "
              f"{new / old:.2f} of it", flush=True)


def show_latency(programs):
    print(f"latency over {Transport.now}: " + ", ".join(f"{name} {latency(p):.3f} ms" for name, p in programs), flush=True)


def show_trip(programs):
    """The median of a round trip, of five runs in turn."""
    found = {name: [] for name, _ in programs}
    for name, p in programs * 5:
        found[name].append(trip(p))
    print(f"round trip over {Transport.now}: "
          + ", ".join(f"{name} {statistics.median(each):.1f} microseconds" for name, each in found.items()), flush=True)


def show_drill(_):
    for count in DRILLS:
        took, used, raced = drill_rate(OURS, count)
        print(f"drill of {count:,}: {took:.2f} s, {used:.2f} s of processor time, {raced / took:,.0f} receives/s", flush=True)


def show_idle(programs):
    limit = resource.getrlimit(resource.RLIMIT_NOFILE)[1]
    resource.setrlimit(resource.RLIMIT_NOFILE, (min(limit, 4096), limit))
    for peers in (1, 500):
        for name, p in programs:
            share, memory = idle(p, peers)
            print(f"idle with {peers}: {name} {share:.2f} % of a processor, {memory} KiB", flush=True)


def show_large(programs):
    def show(name, count, size, took, used):
        bodies = count * 1.048576
        print(f"{name}: {size / took / 1e6:,.0f} MB/s written, {bodies / took:,.0f} of bodies; by processor time "
              f"{size / used / 1e6:,.0f} and {bodies / used:,.0f}", flush=True)

    for form in FORMS:
        head = subprocess.Popen(["head", "-c", str(BODIES << 20), "/dev/zero"], stdout=subprocess.PIPE)
        show("head", BODIES, *read_at_once(head))
        for name, p in programs:
            count = BODIES if p == OURS else BODIES // 10
            show(f"{form} of {name}", count, *large_bodies(p, form, count))


def main():
    if not os.access(OURS, os.X_OK):
        print("skipped: crates/nngcat/out/nngcat isn't built")
        return 0
    programs = [("ours", OURS)] + ([("nng 1.5.2", THEIRS)] if THEIRS else [])
    over_each = {"pull": lambda some: show_rates("pull", pull_rate, some),
                 "push": lambda some: show_rates("push", push_rate, some),
                 "both_ends": both_ends, "pairs": show_pairs, "latency": show_latency, "trip": show_trip}
    over_tcp = {"drill": show_drill, "idle": show_idle, "large": show_large}
    parts = [(name, part, over) for over in OVER for name, part in over_each.items()]
    parts += [(name, part, "tcp") for name, part in over_tcp.items()]
    for name, part, over in parts:
        if name in (sys.argv[1:] or (*over_each, *over_tcp)):
            Transport.now = over
            print(f"load {os.getloadavg()[0]:.1f}", flush=True)
            part(programs)
    return 0


if __name__ == "__main__":
    sys.exit(main())
