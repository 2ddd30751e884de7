#!/usr/bin/env python3
"""Runs the built nngcat a few times, without nng's. Its status is the number of runs with a wrong result.

These runs decide the gate: they are of what no proof and no test reaches, the program's own `main`.
"""
import os
import socket
import subprocess
import sys
import tempfile
import threading
import time

HERE = os.path.dirname(os.path.abspath(__file__))
OURS = os.environ.get("OURS", os.path.join(HERE, "..", "crates", "nngcat", "out", "nngcat"))


def run(*words, **more):
    return subprocess.run([OURS, *words], capture_output=True, timeout=30, **more)


def is_end(end, status, out, err):
    """Returns whether a run ended with this status, output and lines on standard error."""
    lines = end.stderr.decode().splitlines()
    return end.returncode == status and end.stdout.decode() == out and lines == err


def listener():
    s = socket.socket()
    s.bind(("127.0.0.1", 0))
    s.listen()
    return s, s.getsockname()[1]


def wrong_words():
    """Wrong words end with status 1, and the word is named."""
    end = run("--push", "--nothing")
    return is_end(end, 1, "", ["nngcat: bad word 1", "nngcat: see nngcat --help; can't go on with \"--nothing\""])


def missing_file():
    """A file that isn't there ends with status 6, and it is named with the reason."""
    end = run("--push", "--dial", "tcp://127.0.0.1:1", "--file", "/nowhere/at/all")
    lines = end.stderr.decode().splitlines()
    return (end.returncode == 6 and lines[:2] == ["nngcat: file fault", "nngcat: --file \"/nowhere/at/all\""]
            and lines[2:] == ["nngcat: no such file"])


def port_in_use():
    """A port that is taken ends with status 4, and the address is named with the reason."""
    s, port = listener()
    with s:
        end = run("--pull", "--listen", f"tcp://127.0.0.1:{port}")
    lines = end.stderr.decode().splitlines()
    return (end.returncode == 4 and lines[0] == "nngcat: network fault" and len(lines) == 2
            and lines[1].startswith(f"nngcat: tcp://127.0.0.1:{port}: ") and "in use" in lines[1])


def drill():
    """A drill of two prints its three lines."""
    return is_end(run("--drill", "2"), 0, "given 2\nsum 3318706044697439873\nopen 0\n", [])


def help_and_version():
    """Help and version are printed, with status 0."""
    text, version = run("--help"), run("--version")
    return (text.returncode == 0 and text.stdout.startswith(b"Usage: nngcat ROLE ENDPOINT.. [OPTION]..\n")
            and text.stderr == b"" and is_end(version, 0, "nngcat (Goshwelib) 0.1.0, with the behaviour of NNG 1.x\n", []))


def one_message():
    """A pull prints what a push of this program sends, and both end with status 0."""
    s, port = listener()
    s.close()
    pull = subprocess.Popen([OURS, "--pull", "--listen", f"tcp://127.0.0.1:{port}", "--ascii", "--count", "1"],
                            stdout=subprocess.PIPE, stderr=subprocess.PIPE)
    push = run("--push", "--dial", f"tcp://127.0.0.1:{port}", "--data", "hello")
    out, err = pull.communicate(timeout=30)
    return (pull.returncode, out, err, push.returncode, push.stderr) == (0, b"hello\n", b"", 0, b"")


def first_frame(s, came):
    peer, _ = s.accept()
    with peer:
        peer.sendall(b"\0SP\0\0\x31\0\0")
        text = b""
        while len(text) < 21:
            piece = peer.recv(64)
            if not piece:
                break
            text += piece
        came.append(text)


def request_id():
    """The id of the first request of a run."""
    s, port = listener()
    came = []
    peer = threading.Thread(target=first_frame, args=(s, came))
    peer.start()
    run("--req", "--dial", f"tcp://127.0.0.1:{port}", "--data", "a", "--recv-timeout", "1")
    peer.join(10)
    s.close()
    text = came[0]
    if text[:8] != b"\0SP\0\0\x30\0\0" or text[8:16] != b"\0\0\0\0\0\0\0\5" or not text[16] & 0x80:
        raise ValueError(text.hex())
    return text[16:20]


def ids_differ():
    """Two runs begin with different request ids."""
    return request_id() != request_id()


def data_of_a_file():
    """A push sends what a file holds."""
    s, port = listener()
    s.close()
    with tempfile.NamedTemporaryFile() as f:
        f.write(b"from a file")
        f.flush()
        pull = subprocess.Popen([OURS, "--pull", "--listen", f"tcp://127.0.0.1:{port}", "--quoted", "--count", "1"],
                                stdout=subprocess.PIPE)
        push = run("--push", "--dial", f"tcp://127.0.0.1:{port}", "--file", f.name)
        out, _ = pull.communicate(timeout=30)
    return (pull.returncode, out, push.returncode) == (0, b"\"from a file\"\n", 0)


def puller(port):
    """A peer that greets as a pull, once somebody listens, and what it was greeted with."""
    for _ in range(200):
        try:
            peer = socket.create_connection(("127.0.0.1", port))
            break
        except OSError:
            time.sleep(0.02)
    peer.sendall(b"\0SP\0\0\x51\0\0")
    return peer


def ends_behind_its_peers():
    """A push to a peer that never closes ends after some two seconds, and says so."""
    s, port = listener()
    s.close()
    push = subprocess.Popen([OURS, "--push", "--listen", f"tcp://127.0.0.1:{port}", "--data", "a", "--count", "1"],
                            stdout=subprocess.PIPE, stderr=subprocess.PIPE)
    with puller(port):
        begun = time.monotonic()
        out, err = push.communicate(timeout=30)
    took = time.monotonic() - begun
    return push.returncode == 0 and 1.5 < took < 6 and b"did not close in time: 1" in err


def ends_with_its_peers():
    """A push ends as soon as its peer has closed, and not two seconds later."""
    s, port = listener()
    s.close()
    push = subprocess.Popen([OURS, "--push", "--listen", f"tcp://127.0.0.1:{port}", "--data", "a", "--count", "1"],
                            stdout=subprocess.PIPE, stderr=subprocess.PIPE)
    with puller(port) as peer:
        peer.settimeout(20)
        while peer.recv(64):
            pass
    begun = time.monotonic()
    _, err = push.communicate(timeout=30)
    return push.returncode == 0 and time.monotonic() - begun < 1.2 and err == b""


def opened(port):
    """A peer that opened a WebSocket to a push."""
    for _ in range(200):
        try:
            peer = socket.create_connection(("127.0.0.1", port))
            break
        except OSError:
            time.sleep(0.02)
    peer.sendall(b"GET /x HTTP/1.1\r\nHost: a\r\nUpgrade: websocket\r\nConnection: Upgrade\r\n"
                 b"Sec-WebSocket-Key: dGhlIHNhbXBsZSBub25jZQ==\r\nSec-WebSocket-Version: 13\r\n"
                 b"Sec-WebSocket-Protocol: push.sp.nanomsg.org\r\n\r\n")
    head = b""
    while not head.endswith(b"\r\n\r\n"):
        head += peer.recv(1)
    return peer


def slowly_read(address, port, meet, late):
    """The status of a push whose send times out while a peer reads late and slowly, and how many bytes the peer got. The
    peer sends the late bytes when it has read a megabyte: a link that is simply closed would lose the rest then."""
    with tempfile.NamedTemporaryFile() as f:
        f.write(b"x" * 300_000)
        f.flush()
        push = subprocess.Popen([OURS, "--push", "--listen", address, "--file", f.name, "--count", "0",
                                 "--interval", "0", "--send-timeout", "1"], stdout=subprocess.PIPE, stderr=subprocess.PIPE)
        with meet(port) as peer:
            time.sleep(1.5)
            came = 0
            while piece := peer.recv(100_000):
                if came < 1_000_000 <= came + len(piece):
                    peer.sendall(late)
                came += len(piece)
                time.sleep(0.03)
        push.communicate(timeout=30)
    return push.returncode, came


def slow_peer_gets_all():
    """A peer that reads late and slowly gets whole messages, though the send timeout passes meanwhile."""
    s, port = listener()
    s.close()
    status, came = slowly_read(f"tcp://127.0.0.1:{port}", port, puller, b"\0\0\0\0\0\0\0\1a")
    return status == 2 and came > 16 * 300_000 and (came - 8) % 300_008 == 0


def slow_peer_over_websocket_gets_all():
    """So does one over WebSocket."""
    s, port = listener()
    s.close()
    status, came = slowly_read(f"ws://127.0.0.1:{port}/x", port, opened, b"\x82\x81\0\0\0\0a")
    return status == 2 and came > 16 * 300_000 and came % 300_010 in (0, 2, 4)


def main():
    wrong = 0
    for check in (wrong_words, missing_file, port_in_use, drill, help_and_version, one_message, ids_differ,
                  data_of_a_file, ends_behind_its_peers, ends_with_its_peers, slow_peer_gets_all,
                  slow_peer_over_websocket_gets_all):
        try:
            good = check()
        except Exception as e:  # noqa: BLE001
            print(f"{check.__name__}: {e!r}")
            good = False
        print(f"{'ok  ' if good else 'WRONG'} {check.__doc__}")
        wrong += not good
    return wrong


if __name__ == "__main__":
    sys.exit(min(main(), 100))
