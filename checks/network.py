#!/usr/bin/env python3
"""Tries the built nngcat over a network with a round trip of its own: two network namespaces, joined by this script,
which holds each packet for half the round trip.

Skipped where no namespace can be made. Each check prints a line; the status is the number of checks that failed.
"""
import collections
import contextlib
import fcntl
import os
import select
import shutil
import statistics
import struct
import subprocess
import sys
import threading
import time

from outside import OURS, THEIRS

TUNSETIFF, IFF_TUN, IFF_NO_PI = 0x400454CA, 1, 0x1000
HOSTS = ("10.77.0.1", "10.77.0.2")


def ip(*words):
    subprocess.run(["ip", *words], check=True, capture_output=True)


def device(name):
    fd = os.open("/dev/net/tun", os.O_RDWR | os.O_NONBLOCK)
    try:
        fcntl.ioctl(fd, TUNSETIFF, struct.pack("16sH", name.encode(), IFF_TUN | IFF_NO_PI))
    except OSError:
        os.close(fd)
        raise
    return fd


class Network:
    """Two hosts; a packet takes `delay` seconds from one to the other."""

    def __init__(self, delay):
        self.delay = delay
        self.stopped = False
        self.begun = []  # when a connection was asked for, by its packets
        self.names = [f"nngcat-{os.getpid()}-{i}" for i in (0, 1)]
        self.fds = []

    def __enter__(self):
        # What was made is taken back where a later part fails.
        with contextlib.ExitStack() as made:
            for i, name in enumerate(self.names):
                ip("netns", "add", name)
                made.callback(ip, "netns", "del", name)
                tun = f"nc{os.getpid() % 100000}x{i}"
                fd = device(tun)
                made.callback(os.close, fd)
                self.fds.append(fd)
                ip("link", "set", tun, "netns", name)
                ip("-n", name, "addr", "add", f"{HOSTS[i]}/24", "dev", tun)
                ip("-n", name, "link", "set", tun, "up")
                ip("-n", name, "link", "set", "lo", "up")
            self.carrier = threading.Thread(target=self.carry)
            self.carrier.start()
            made.callback(self.stop)
            self.made = made.pop_all()
        return self

    def __exit__(self, *_):
        self.made.close()

    def stop(self):
        """Ends the thread that passes packets on."""
        self.stopped = True
        self.carrier.join()

    def carry(self):
        """Passes each packet on, once it is old enough."""
        waiting = collections.deque()
        while not self.stopped:
            now = time.monotonic()
            while waiting and waiting[0][0] <= now:
                _, fd, packet = waiting.popleft()
                try:
                    os.write(fd, packet)
                except OSError:
                    pass
            rest = max(0, waiting[0][0] - now) if waiting else 0.05
            for fd in select.select(self.fds, [], [], rest)[0]:
                self.take(fd, waiting)

    def take(self, fd, waiting):
        other = self.fds[1 - self.fds.index(fd)]
        try:
            packet = os.read(fd, 65536)
        except OSError:
            return
        now = time.monotonic()
        # A TCP packet that begins a connection: SYN without ACK.
        if len(packet) > 33 and packet[9] == 6 and packet[(packet[0] & 15) * 4 + 13] & 0x12 == 2:
            self.begun.append(now)
        waiting.append((now + self.delay, other, packet))

    def start(self, host, program, *words):
        return subprocess.Popen(["ip", "netns", "exec", self.names[host], program, *words], stdout=subprocess.PIPE,
                                stderr=subprocess.PIPE)


def first_message(net, program, tries=5):
    """The median of the milliseconds from the start of a dialing push to the end of a pull that prints its message."""
    times = []
    for i in range(tries):
        at = f"tcp://{HOSTS[0]}:{5000 + i}"
        pull = net.start(0, program, "--pull", "--listen", at, "--ascii", "--count", "1")
        time.sleep(0.5)
        begun = time.monotonic()
        push = net.start(1, program, "--push", "--dial", at, "--data", "hello", "--interval", "20")
        line = pull.stdout.readline()
        times.append((time.monotonic() - begun) * 1000)
        push.kill()
        push.communicate(timeout=20)
        pull.communicate(timeout=20)
        if line.strip() != b"hello":
            return None
    return statistics.median(times)


def dials_at_a_distance():
    """A first message over a round trip of 2 and of 20 ms comes at most 1.2 times as late as between two of Debian's."""
    told, well = [], True
    for trip in (2, 20):
        with Network(trip / 2000) as net:
            ours = first_message(net, OURS)
            theirs = first_message(net, THEIRS) if THEIRS else None
        well = well and ours is not None and (theirs is None or ours <= 1.2 * theirs)
        told.append(f"round trip {trip} ms: ours {ours and round(ours, 1)} ms, nng's {theirs and round(theirs, 1)} ms")
    return well, "; ".join(told)


def refused_dials_come_again():
    """A dial that is refused over a network is tried again after 100 ms and one round trip."""
    with Network(0.01) as net:
        run = net.start(1, OURS, "--push", "--dial", f"tcp://{HOSTS[0]}:6000", "--data", "a")
        time.sleep(2.5)
        run.kill()
        run.communicate(timeout=20)
        gaps = [(b - a) * 1000 for a, b in zip(net.begun, net.begun[1:])]
    middle = statistics.median(gaps) if gaps else 0
    return 100 <= middle <= 140, f"{len(gaps) + 1} dials, {middle:.0f} ms apart"


def all_arrives_at_a_distance():
    """Twelve messages of 200 kB over a round trip of 20 ms arrive whole."""
    path = f"/tmp/network-{os.getpid()}"
    with open(path, "wb") as f:
        f.write(b"x" * 200_000)
    with Network(0.01) as net:
        at = f"tcp://{HOSTS[0]}:5000"
        pull = net.start(0, OURS, "--pull", "--listen", at, "--raw", "--count", "12")
        time.sleep(0.5)
        push = net.start(1, OURS, "--push", "--dial", at, "--file", path, "--count", "12", "--interval", "0")
        out, _ = pull.communicate(timeout=60)
        _, err = push.communicate(timeout=20)
    os.unlink(path)
    return (len(out), push.returncode, err) == (2_400_000, 0, b""), f"{len(out)} bytes, status {push.returncode}, {err!r}"


CHECKS = (dials_at_a_distance, refused_dials_come_again, all_arrives_at_a_distance)


def can():
    """Returns whether this machine lets a network be made."""
    if not shutil.which("ip") or os.geteuid() != 0:
        return False
    try:
        with Network(0.001):
            return True
    except (OSError, subprocess.SubprocessError):
        return False


def main():
    if not can():
        print("skipped: no network namespace can be made here")
        return 0
    wanted = sys.argv[1:]
    failed = 0
    for check in CHECKS:
        if wanted and check.__name__ not in wanted:
            continue
        try:
            well, told = check()
        except Exception as e:  # noqa: BLE001
            well, told = False, repr(e)
        print(f"{'ok  ' if well else 'FAIL'} {check.__name__}: {told}", flush=True)
        failed += not well
    return failed


if __name__ == "__main__":
    sys.exit(main())
