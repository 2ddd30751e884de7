#!/usr/bin/env python3
"""Tries the built examples (crates/ex_pull, ex_req, ex_rep, ex_sub) against Debian's nngcat 1.5.2.

Skips what is missing. Each check prints a line; the status is the number of checks that failed. EXAMPLES names a folder
with the programs, where they aren't in out/ of their crates.
"""
import os
import signal
import socket
import subprocess
import sys
import time

from outside import PULL, PUSH, REP, REQ, THEIRS, frame, free_port, greeting

HERE = os.path.dirname(os.path.abspath(__file__))
FOLDER = os.environ.get("EXAMPLES")
CHECKS = []


def program(name):
    path = os.path.join(FOLDER, name) if FOLDER else os.path.join(HERE, "..", "crates", name, "out", name)
    return path if os.access(path, os.X_OK) else None


def check(*needs):
    """A check of these examples; the last is theirs, where it is needed."""
    def add(function):
        CHECKS.append((function, needs))
        return function
    return add


def begin(*words):
    return subprocess.Popen(words, stdout=subprocess.PIPE, stderr=subprocess.PIPE, text=True)


def ours(name, at):
    return begin(program(name), at)


def ended(process, seconds=60):
    """What it printed, what it complained of, and its status."""
    try:
        out, err = process.communicate(timeout=seconds)
    finally:
        process.kill()
    return out.splitlines(), err, process.returncode


def listening(port, tries=500):
    """Waits until somebody listens there, without a connection that a peer would see."""
    line = f":{port:04X} 00000000:0000 0A"
    for _ in range(tries):
        with open("/proc/net/tcp") as tcp:
            if line in tcp.read():
                return
        time.sleep(0.02)
    raise AssertionError("nobody listens")


def theirs(*words):
    """One nngcat that ends by itself."""
    return subprocess.run([THEIRS, *words], capture_output=True, text=True, timeout=20)


@check("ex_pull", "theirs")
def pull_prints_what_their_push_sends():
    port = free_port()
    pull = ours("ex_pull", f"tcp://127.0.0.1:{port}")
    listening(port)
    for i in range(10):
        assert theirs("--push", "--dial", f"tcp://127.0.0.1:{port}", "--data", f"message {i}").returncode == 0
    out, err, status = ended(pull)
    assert (out, status) == ([f"message {i}" for i in range(10)], 0), (out, err, status)


@check("ex_pull", "theirs")
def pull_outlives_a_push_that_is_killed():
    port = free_port()
    at = f"tcp://127.0.0.1:{port}"
    pull = ours("ex_pull", at)
    listening(port)
    push = begin(THEIRS, "--push", "--dial", at, "--data", "first", "--interval", "1")
    time.sleep(2.5)
    push.send_signal(signal.SIGKILL)
    push.wait()
    push = begin(THEIRS, "--push", "--dial", at, "--data", "second", "--interval", "1")
    out, err, status = ended(pull)
    push.kill()
    assert status == 0 and len(out) == 10 and set(out) == {"first", "second"}, (out, err, status)


@check("ex_pull", "theirs")
def pull_outlives_a_message_that_is_too_long():
    port = free_port()
    at = f"tcp://127.0.0.1:{port}"
    pull = ours("ex_pull", at)
    listening(port)
    with socket.create_connection(("127.0.0.1", port)) as peer:
        peer.settimeout(10)
        peer.sendall(greeting(PUSH) + (1_048_577).to_bytes(8, "big"))
        assert peer.recv(8) == greeting(PULL) and peer.recv(1) == b""
    for i in range(10):
        assert theirs("--push", "--dial", at, "--data", f"message {i}").returncode == 0
    out, err, status = ended(pull)
    assert (out, status) == ([f"message {i}" for i in range(10)], 0), (out, err, status)


@check("ex_req", "theirs")
def req_prints_the_reply_of_their_rep():
    port = free_port()
    at = f"tcp://127.0.0.1:{port}"
    rep = begin(THEIRS, "--rep", "--listen", at, "--data", "it is me")
    listening(port)
    out, err, status = ended(ours("ex_req", at))
    rep.kill()
    assert (out, status) == (["it is me"], 0), (out, err, status)


@check("ex_req", "theirs")
def req_waits_for_a_rep_that_is_killed_and_comes_back():
    port = free_port()
    at = f"tcp://127.0.0.1:{port}"
    silent = socket.create_server(("127.0.0.1", port))
    req = ours("ex_req", at)
    peer, _ = silent.accept()
    peer.sendall(b"\0SP\0\0\x31\0\0")
    came = b""
    while b"who is there?" not in came:
        came += peer.recv(4096)
    peer.close()
    silent.close()
    rep = begin(THEIRS, "--rep", "--listen", at, "--data", "back again")
    out, err, status = ended(req)
    rep.kill()
    assert (out, status) == (["back again"], 0), (out, err, status)


@check("ex_rep", "theirs")
def rep_answers_their_req():
    port = free_port()
    at = f"tcp://127.0.0.1:{port}"
    rep = ours("ex_rep", at)
    listening(port)
    for i in range(10):
        asked = theirs("--req", "--dial", at, "--data", f"request {i}", "--ascii")
        assert (asked.stdout.strip(), asked.returncode) == (f"request {i}", 0), asked
    out, err, status = ended(rep)
    assert status == 0, (out, err, status)


@check("ex_rep", "theirs")
def rep_outlives_a_req_that_is_killed():
    port = free_port()
    at = f"tcp://127.0.0.1:{port}"
    rep = ours("ex_rep", at)
    listening(port)
    for i in range(10):
        if i == 4:
            with socket.create_connection(("127.0.0.1", port)) as half:
                half.sendall(b"\0SP\0\0\x30\0\0\0\0")
            killed = begin(THEIRS, "--req", "--dial", at, "--data", "killed", "--interval", "5")
            time.sleep(1)
            killed.send_signal(signal.SIGKILL)
            killed.wait()
            continue
        asked = theirs("--req", "--dial", at, "--data", f"request {i}", "--ascii")
        assert asked.stdout.strip() == f"request {i}", asked
    out, err, status = ended(rep)
    assert status == 0, (out, err, status)


@check("ex_rep")
def a_slow_req_has_every_reply():
    """A requester that reads slowly once its ten requests are sent, and sends a byte meanwhile, gets 10 MB whole."""
    port = free_port()
    rep = ours("ex_rep", f"tcp://127.0.0.1:{port}")
    listening(port)
    frames = [frame((0x80000000 | i).to_bytes(4, "big") + bytes([i]) * 1_000_000) for i in range(10)]
    with socket.socket() as peer:
        peer.setsockopt(socket.SOL_SOCKET, socket.SO_RCVBUF, 65_536)
        peer.settimeout(20)
        peer.connect(("127.0.0.1", port))
        peer.sendall(greeting(REQ) + b"".join(frames))
        came = b""
        while piece := peer.recv(100_000):
            if len(came) < 9_000_000 <= len(came) + len(piece):
                peer.sendall(b"\0")
            came += piece
            time.sleep(0.005)
    out, err, status = ended(rep)
    assert status == 0 and came == greeting(REP) + b"".join(frames), (len(came), out, err, status)


@check("ex_sub", "theirs")
def sub_prints_what_their_pub_sends():
    port = free_port()
    at = f"tcp://127.0.0.1:{port}"
    pub = begin(THEIRS, "--pub", "--listen", at, "--data", "news", "--interval", "1")
    listening(port)
    out, err, status = ended(ours("ex_sub", at))
    pub.kill()
    assert (out, status) == (["news"] * 10, 0), (out, err, status)


@check("ex_sub", "theirs")
def sub_dials_a_pub_again_that_is_killed():
    port = free_port()
    at = f"tcp://127.0.0.1:{port}"
    pub = begin(THEIRS, "--pub", "--listen", at, "--data", "old news", "--interval", "1")
    listening(port)
    sub = ours("ex_sub", at)
    time.sleep(3.5)
    pub.send_signal(signal.SIGKILL)
    pub.wait()
    pub = begin(THEIRS, "--pub", "--listen", at, "--data", "new news", "--interval", "1")
    out, err, status = ended(sub)
    pub.kill()
    assert status == 0 and len(out) == 10 and set(out) == {"old news", "new news"}, (out, err, status)


@check("ex_pull", "ex_req", "ex_rep", "ex_sub")
def mistakes_have_an_answer():
    taken = socket.create_server(("127.0.0.1", 0))
    port = taken.getsockname()[1]
    wrong = "Address invalid behind its first 13 bytes"
    for name, at, text in (
        ("ex_pull", "tcp://127.0.0x1:80", wrong),
        ("ex_req", "tcp://127.0.0x1:80", wrong),
        ("ex_req", "tcp://*:80", "Address invalid"),
        ("ex_rep", f"tcp://127.0.0.1:{port}", "Address in use"),
        ("ex_pull", f"tcp://127.0.0.1:{port}", "Address in use"),
    ):
        out, err, status = ended(ours(name, at))
        assert status != 0 and text in err and at in err, (name, at, out, err, status)
    taken.close()


@check("ex_pull", "ex_req", "ex_rep", "ex_sub")
def nobody_there_times_out():
    names = ("ex_pull", "ex_req", "ex_rep", "ex_sub")
    began = time.monotonic()
    runs = [(name, ours(name, f"tcp://127.0.0.1:{free_port()}")) for name in names]
    for name, process in runs:
        out, err, status = ended(process)
        assert status != 0 and "Timed out" in err, (name, out, err, status)
    took = time.monotonic() - began
    assert 9.5 < took < 20, took


def main():
    failed = 0
    for function, needs in CHECKS:
        if sys.argv[1:] and function.__name__ not in sys.argv[1:]:
            continue
        missing = [name for name in needs if not (THEIRS if name == "theirs" else program(name))]
        if missing:
            print(f"skipped: {function.__name__}: {', '.join(missing)} missing")
            continue
        try:
            function()
            print(f"ok: {function.__name__}", flush=True)
        except (AssertionError, OSError, subprocess.TimeoutExpired) as why:
            failed += 1
            print(f"FAILED: {function.__name__}: {why}", flush=True)
    return failed


if __name__ == "__main__":
    sys.exit(main())
