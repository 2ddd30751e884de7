#!/usr/bin/env python3
"""Tries the built nngcat against sockets of NNG's own library (Debian's package `libnng1`), which stand in this process.

The checks go over each transport that OVER names, of tcp and ipc. Skips all where the library isn't there. Each check
prints a line for each transport; the status is the number of lines that failed.
"""
import ctypes
import ctypes.util
import os
import statistics
import sys
import threading
import time

from outside import (OURS, OVER, PUSHED, THEIRS, Transport, address, begin, connect, free_port, is_ipc, listening, path,
                     reads, run_checks, said, start, stop)

WAIT = 20_000  # milliseconds that a call of the library may take
NNG_EPROTO = 13


def load():
    for name in (ctypes.util.find_library("nng"), "libnng.so.1"):
        try:
            return ctypes.CDLL(name) if name else None
        except OSError:
            continue
    return None


NNG = load()


class Id(ctypes.Structure):
    """nng_socket, nng_ctx, nng_dialer, nng_listener: each is one number."""
    _fields_ = [("id", ctypes.c_uint32)]


class NngError(Exception):
    pass


def must(status):
    if status != 0:
        raise NngError(f"error {status} of the library")


class Socket:
    """A socket of the library."""

    def __init__(self, role, raw=False):
        self.socket = Id()
        name = role if role == "pair1" else f"{role}0"
        must(getattr(NNG, f"nng_{name}_open" + ("_raw" if raw else ""))(ctypes.byref(self.socket)))
        if not raw:
            self.set_ms("recv-timeout", WAIT)
            self.set_ms("send-timeout", WAIT)

    def __enter__(self):
        return self

    def __exit__(self, *_):
        self.close()

    def set_ms(self, option, milliseconds):
        must(NNG.nng_setopt_ms(self.socket, option.encode(), ctypes.c_int32(milliseconds)))

    def subscribe(self, topic):
        must(NNG.nng_setopt(self.socket, b"sub:subscribe", topic, ctypes.c_size_t(len(topic))))

    def listen(self, port):
        must(NNG.nng_listen(self.socket, address(port).encode(), None, 0))
        return self

    def dial(self, port):
        """Dials now, or as soon as somebody listens."""
        must(NNG.nng_dial(self.socket, address(port).encode(), None, 2))
        return self

    def send(self, body):
        must(NNG.nng_send(self.socket, body, ctypes.c_size_t(len(body)), 0))

    def receive(self):
        room = ctypes.create_string_buffer(1 << 16)
        size = ctypes.c_size_t(len(room))
        must(NNG.nng_recv(self.socket, room, ctypes.byref(size), 0))
        return room.raw[:size.value]

    def send_with(self, header, body):
        """Sends a message with this header; returns the library's status."""
        message = ctypes.c_void_p()
        must(NNG.nng_msg_alloc(ctypes.byref(message), ctypes.c_size_t(0)))
        must(NNG.nng_msg_header_append(message, header, ctypes.c_size_t(len(header))))
        must(NNG.nng_msg_append(message, body, ctypes.c_size_t(len(body))))
        status = NNG.nng_sendmsg(self.socket, message, 0)
        if status != 0:
            NNG.nng_msg_free(message)
        return status

    def receive_with(self):
        """The header and the body of the next message."""
        message = ctypes.c_void_p()
        must(NNG.nng_recvmsg(self.socket, ctypes.byref(message), 0))
        NNG.nng_msg_header.restype = NNG.nng_msg_body.restype = ctypes.c_void_p
        NNG.nng_msg_header_len.restype = NNG.nng_msg_len.restype = ctypes.c_size_t
        header = ctypes.string_at(NNG.nng_msg_header(message), NNG.nng_msg_header_len(message))
        body = ctypes.string_at(NNG.nng_msg_body(message), NNG.nng_msg_len(message))
        NNG.nng_msg_free(message)
        return header, body

    def close(self):
        NNG.nng_close(self.socket)


class Context:
    """A context of a socket of the library."""

    def __init__(self, socket):
        self.ctx = Id()
        must(NNG.nng_ctx_open(ctypes.byref(self.ctx), socket.socket))
        self.aio = ctypes.c_void_p()
        must(NNG.nng_aio_alloc(ctypes.byref(self.aio), None, None))
        NNG.nng_aio_set_timeout(self.aio, ctypes.c_int32(WAIT))

    def result(self):
        NNG.nng_aio_wait(self.aio)
        must(NNG.nng_aio_result(self.aio))

    def send(self, body):
        message = ctypes.c_void_p()
        must(NNG.nng_msg_alloc(ctypes.byref(message), ctypes.c_size_t(0)))
        must(NNG.nng_msg_append(message, body, ctypes.c_size_t(len(body))))
        NNG.nng_aio_set_msg(self.aio, message)
        NNG.nng_ctx_send(self.ctx, self.aio)
        self.result()

    def receive(self):
        NNG.nng_ctx_recv(self.ctx, self.aio)
        self.result()
        NNG.nng_aio_get_msg.restype = NNG.nng_msg_body.restype = ctypes.c_void_p
        NNG.nng_msg_len.restype = ctypes.c_size_t
        message = ctypes.c_void_p(NNG.nng_aio_get_msg(self.aio))
        body = ctypes.string_at(NNG.nng_msg_body(message), NNG.nng_msg_len(message))
        NNG.nng_msg_free(message)
        return body

    def close(self):
        NNG.nng_ctx_close(self.ctx)
        NNG.nng_aio_free(self.aio)


def device(front_role, front, back_role, back):
    """A device between two raw sockets of the library, for the rest of this process."""
    ends = Socket(front_role, raw=True).listen(front), Socket(back_role, raw=True).dial(back)
    threading.Thread(target=lambda: NNG.nng_device(ends[0].socket, ends[1].socket), daemon=True).start()
    return ends


def contexts_ask_ours():
    """Four contexts of one requester have a request under way at a time; each gets its reply."""
    port = free_port()
    run = start("--rep", "--listen", address(port), "--data", "pong", "--ascii", "--count", "4")
    connect(port).close()
    with Socket("req") as asker:
        asker.dial(port)
        contexts = [Context(asker) for _ in range(4)]
        for number, context in enumerate(contexts):
            context.send(b"ping%d" % number)
        came = [context.receive() for context in reversed(contexts)]
        for context in contexts:
            context.close()
    outs, well = said([run])
    heard = sorted(outs[0].split(b"\n"))
    return well and came == [b"pong"] * 4 and heard == [b"ping%d" % n for n in range(4)], f"{came}, {heard}"


def echo(replier, times):
    for _ in range(times):
        replier.send(b"<" + replier.receive() + b">")


def replies_to_ours():
    """A replier of the library answers three requesters of ours, listening and dialing."""
    results = []
    for listens in (True, False):
        port = free_port()
        ask = ("--req", "--data", "ping", "--ascii", "--count", "1", "--recv-timeout", "20")
        with Socket("rep") as replier:
            if listens:
                replier.listen(port)
                runs = [start(*ask, "--dial", address(port)) for _ in range(3)]
            else:
                runs = [start(*ask, "--listen", address(port))]
                replier.dial(port)
            echo(replier, len(runs))
            outs, well = said(runs)
            results.append(well and outs == [b"<ping>"] * len(runs))
    return all(results), f"{results}"


def replier_dies():
    """A replier of the library takes a request and is gone; the next one at its port gets the request again."""
    port = free_port()
    first = Socket("rep").listen(port)
    run = start("--req", "--dial", address(port), "--data", "ping", "--ascii", "--count", "1", "--recv-timeout", "20")
    heard = first.receive()
    first.close()
    with Socket("rep") as second:
        second.listen(port)
        echo(second, 1)
        outs, well = said([run])
    return well and heard == b"ping" and outs == [b"<ping>"], f"{heard}, {outs}"


def two_devices():
    """A request goes through two devices, in both directions: the backtrace leads the reply back."""
    told = []
    for asker, replier in ((OURS, None), (None, OURS)):
        ports = [free_port() for _ in range(3)]
        ends = device("rep", ports[0], "req", ports[1]) + device("rep", ports[1], "req", ports[2])
        if asker:
            with Socket("rep") as server:
                server.listen(ports[2])
                run = begin(asker, "--req", "--dial", address(ports[0]), "--data", "far", "--ascii", "--count", "1",
                            "--recv-timeout", "20")
                echo(server, 1)
                told += said([run])[0]
        else:
            run = begin(replier, "--rep", "--listen", address(ports[2]), "--data", "pong", "--ascii", "--count", "1")
            with Socket("req") as client:
                client.dial(ports[0])
                client.send(b"far")
                told.append(client.receive())
                told += said([run])[0]
        for end in ends:
            end.close()
    return told == [b"<far>", b"pong", b"far"], f"{told}"


def all_answers(asker):
    """What comes until the survey is over."""
    answers = []
    try:
        while True:
            answers.append(asker.receive())
    except NngError:
        return answers


def surveys_by_the_library(listens):
    """A surveyor of the library and four of our respondents, each side listening in turn."""
    ports = [free_port()] * 4 if listens else [free_port() for _ in range(4)]
    answer = ("--respondent", "--ascii", "--count", "2")
    # The interval holds the answer to the second survey back for three seconds.
    words = [(*answer, "--data", f"n{n}") for n in range(3)] + [(*answer, "--data", "late", "--interval", "3")]
    with Socket("surveyor") as asker:
        asker.set_ms("surveyor:survey-time", 1_500)
        if listens:
            asker.listen(ports[0])
            runs = [start(*more, "--dial", address(port)) for port, more in zip(ports, words)]
        else:
            runs = [listening(OURS, port, *more) for port, more in zip(ports, words)]
            for port in ports:
                asker.dial(port)
        time.sleep(1)
        # The answers to the first are on their way when it is replaced.
        asker.send(b"first")
        asker.send(b"second")
        answers = all_answers(asker)
        outs, well = said(runs)
        # The late one has come by now.
        asker.send(b"third")
        late = all_answers(asker)
    right = sorted(answers) == [b"n0", b"n1", b"n2"] and late == [] and outs == [b"first\nsecond"] * 4
    return well and right, (answers, late, outs)


def surveys_of_the_library():
    """A surveyor of the library asks four of our respondents, listening and dialing; a survey that is replaced gets no
    answers, and one that is over gets none of the respondent that answers late."""
    tried = [surveys_by_the_library(listens) for listens in (True, False)]
    return all(well for well, _ in tried), f"{[told for _, told in tried]}"


def answers_twice(respondent):
    """One survey is answered twice, by a raw respondent."""
    message = ctypes.c_void_p()
    if NNG.nng_recvmsg(respondent.socket, ctypes.byref(message), 0) != 0:
        return
    again = ctypes.c_void_p()
    NNG.nng_msg_dup(ctypes.byref(again), message)
    NNG.nng_sendmsg(respondent.socket, message, 0)
    NNG.nng_sendmsg(respondent.socket, again, 0)


def answers_after(respondent, seconds, body, survey_of):
    """Answers one survey after `seconds`, and keeps in `survey_of` what it was."""
    try:
        survey_of[body] = respondent.receive()
        time.sleep(seconds)
        respondent.send(body)
    except NngError as e:
        survey_of[body] = e


def surveys_the_library(listens):
    """Our surveyor and four respondents of the library, each side listening in turn."""
    ports = [free_port()] * 4 if listens else [free_port() for _ in range(4)]
    ask = ("--surveyor", "--data", "who", "--ascii", "--count", "3", "--interval", "1", "--recv-timeout", "5")
    plain, late, silent = (Socket("respondent") for _ in range(3))
    twice = Socket("respondent", raw=True)
    ends = (plain, late, silent, twice)
    if listens:
        run = listening(OURS, ports[0], *ask)
        for end, port in zip(ends, ports):
            end.dial(port)
    else:
        for end, port in zip(ends, ports):
            end.listen(port)
        run = start(*ask, *(word for port in ports for word in ("--dial", address(port))))
    heard = {}
    answering = [threading.Thread(target=answers_twice, args=(twice,), daemon=True),
                 threading.Thread(target=answers_after, args=(plain, 0, b"here", heard), daemon=True),
                 threading.Thread(target=answers_after, args=(late, 1.5, b"late", heard), daemon=True)]
    for one in answering:
        one.start()
    outs, well = said([run])
    for one in answering:
        one.join(timeout=5)
    for end in ends:
        end.close()
    right = sorted(outs[0].split(b"\n")) == [b"here", b"who", b"who"] and heard == {b"here": b"who", b"late": b"who"}
    return well and right, (outs, heard)


def respondents_of_the_library():
    """Our surveyor, listening and dialing, asks four respondents of the library: one answers, one answers twice, one a
    second and a half later, when its survey is over, and one never."""
    tried = [surveys_the_library(listens) for listens in (True, False)]
    return all(well for well, _ in tried), f"{[told for _, told in tried]}"


def numbered():
    return [b"%015d\n" % n for n in range(PUSHED)]


def many_of_the_library():
    """PUSHED numbered messages of a push of the library are printed by our pull in order; PUSHED messages of our push,
    which are all the same, arrive at a pull of the library."""
    told = []
    for listens in (True, False):
        port = free_port()
        words = ("--pull", "--raw", "--count", str(PUSHED))
        with Socket("push") as push:
            if listens:
                push.listen(port)
                run = start(*words, "--dial", address(port))
            else:
                run = listening(OURS, port, *words)
                push.dial(port)
            sending = threading.Thread(target=lambda: [push.send(body) for body in numbered()], daemon=True)
            sending.start()
            out, _ = run.communicate(timeout=120)
            sending.join(timeout=5)
            told.append(run.returncode == 0 and out == b"".join(numbered()))
        port = free_port()
        words = ("--push", "--data", "0123456789abcdef", "--count", str(PUSHED))
        with Socket("pull") as pull:
            if listens:
                pull.listen(port)
                run = start(*words, "--dial", address(port))
            else:
                run = listening(OURS, port, *words)
                pull.dial(port)
            came = all(pull.receive() == b"0123456789abcdef" for _ in range(PUSHED))
            told.append(came and said([run]) == ([b""], True))
    return all(told), f"{PUSHED} messages, {told}"


def topics_of_the_library():
    """A subscriber of the library gets what its topic begins; ours gets what its own does."""
    port = free_port()
    with Socket("sub") as sub:
        sub.subscribe(b"ne")
        sub.listen(port)
        run = start("--pub", "--dial", address(port), "--data", "news", "--count", "3", "--interval", "1")
        mine = [sub.receive()]
        stop(run)
    port = free_port()
    with Socket("pub") as pub:
        pub.listen(port)
        run = start("--sub", "--subscribe", "b", "--dial", address(port), "--ascii", "--count", "2")
        time.sleep(1)
        for body in (b"a1", b"b1", b"c1", b"b2"):
            pub.send(body)
        outs, well = said([run])
    return well and mine == [b"news"] and outs == [b"b1\nb2"], f"{mine}, {outs}"


def pair_and_bus_of_the_library():
    """A pair and a bus of the library and ours, both ways."""
    told = []
    for role in ("pair", "bus"):
        port = free_port()
        with Socket(role) as theirs:
            theirs.listen(port)
            run = start(f"--{role}", "--dial", address(port), "--data", "to", "--ascii", "--count", "1", "--interval", "1")
            told.append(theirs.receive())
            stop(run)
            run = start(f"--{role}", "--dial", address(port), "--ascii", "--count", "1")
            time.sleep(1)
            theirs.send(b"fro")
            told += said([run])[0]
    return told == [b"to", b"fro"] * 2, f"{told}"


def meets(theirs, port, listens):
    """The library's socket listens there or dials."""
    return theirs.listen(port) if listens else theirs.dial(port)


def cleared(port):
    """The port, without the file that a run which listened left there."""
    if is_ipc() and os.path.exists(path(port)):
        os.unlink(path(port))
    return port


def comes_and_goes(listens):
    """Three sockets of the library, one after the other, get what a pair of ours sends, and three others send to one of
    ours that prints; then three of ours that are killed send to one socket of the library."""
    port, told, end = free_port(), [], "--dial" if listens else "--listen"
    run = start("--pair1", end, address(port), "--data", "mine", "--interval", "1")
    for _ in range(3):
        with Socket("pair1") as theirs:
            told.append(meets(theirs, port, listens).receive() == b"mine")
    told.append(run.poll() is None)
    stop(run)
    port = free_port()
    run = start("--pair1", end, address(port), "--raw")
    for body in (b"first", b"second", b"third"):
        with Socket("pair1") as theirs:
            meets(theirs, port, listens).send(body)
            told.append(reads(run, body))
    stop(run)
    port = free_port()
    with Socket("pair1") as theirs:
        meets(theirs, port, listens)
        for text in ("first", "second", "third"):
            run = start("--pair1", end, address(port), "--data", text, "--interval", "60")
            told.append(theirs.receive() == text.encode())
            stop(run)
            if not listens:
                cleared(port)
    return told


def pairs_of_version_1():
    """A pair of version 1 of the library and ours, both ways, each listening in turn, killed and started again."""
    told = [comes_and_goes(listens) for listens in (True, False)]
    return all(all(each) for each in told), f"{told}"


def hop(count):
    return count.to_bytes(4, "big")


# What a raw pair is handed, and whether ours prints it: with one hop more, 9 are too many.
HOPS = ((1, True), (0, True), (7, True), (8, False), (254, False), (2, True))
NO_COUNTS = (b"", b"\0\0\1", hop(255), hop(256), hop(1) * 2)


def hops_to_ours(theirs, run, hops):
    """Messages with these counts go to a pair of ours, which prints those that come over at most 8 pipes."""
    told = []
    for count, comes in hops:
        told.append(theirs.send_with(hop(count), b"<%d>" % count) == 0)
        if comes:
            told.append(reads(run, b"<%d>" % count))
    return told


def raw_pairs_with(listens):
    """A raw pair of the library sees the hop count of what ours sends, and its own come to ours with one more. Headers
    that are no counts the library refuses."""
    port, told = free_port(), []
    with Socket("pair1", raw=True) as theirs:
        theirs.set_ms("recv-timeout", WAIT)
        theirs.set_ms("send-timeout", WAIT)
        meets(theirs, port, listens)
        end = "--dial" if listens else "--listen"
        run = start("--pair1", end, address(port), "--data", "mine")
        told.append(theirs.receive_with() == (hop(1), b"mine"))
        told.append(said([run]) == ([b""], True))
        run = start("--pair1", end, address(port if listens else cleared(port)), "--raw")
        told += hops_to_ours(theirs, run, HOPS)
        told += [theirs.send_with(header, b"x") == NNG_EPROTO for header in NO_COUNTS]
        told += hops_to_ours(theirs, run, HOPS)
        stop(run)
    return told


def raw_pairs_of_the_library():
    """A raw pair of version 1 of the library and ours, each listening in turn."""
    told = [raw_pairs_with(listens) for listens in (True, False)]
    return all(all(each) for each in told), f"{told}"


def pairs_through_devices():
    """Pairs of version 1 on both sides of one device of the library, and of two: each adds one to the hop count."""
    told = []
    for count in (1, 2):
        ports = [free_port() for _ in range(count + 1)]
        ends = [end for front, back in zip(ports, ports[1:]) for end in device("pair1", front, "pair1", back)]
        with Socket("pair1", raw=True) as far:
            far.set_ms("recv-timeout", WAIT)
            far.set_ms("send-timeout", WAIT)
            far.listen(ports[-1])
            run = start("--pair1", "--dial", address(ports[0]), "--data", "mine")
            told.append(far.receive_with() == (hop(1 + count), b"mine"))
            told.append(said([run]) == ([b""], True))
            run = start("--pair1", "--dial", address(ports[0]), "--raw")
            told += hops_to_ours(far, run, ((1, True), (7 - count, True), (8 - count, False), (8, False), (0, True)))
            stop(run)
        runs = [start("--pair1", "--listen", address(cleared(ports[-1])), "--ascii", "--count", "1"),
                start("--pair1", "--dial", address(ports[0]), "--data", "through")]
        told.append(said(runs) == ([b"through", b""], True))
        for end in ends:
            end.close()
    return all(told), f"{told}"


def round_trips(program, trips=20_000):
    """The median of a round trip of 8 bytes in microseconds, and trips a second, with this server."""
    port = free_port()
    run = listening(program, port, "--rep", "--data", "12345678")
    with Socket("req") as client:
        client.dial(port)
        times = []
        for _ in range(trips):
            begun = time.perf_counter()
            client.send(b"abcdefgh")
            client.receive()
            times.append(time.perf_counter() - begun)
    stop(run)
    return statistics.median(times) * 1e6, trips / sum(times)


def measure(over, pairs=5):
    """Round trips with ours and nng's as the server, in turn, and the median over the runs of each. Returns how often ours
    is worse: by the median of a trip, and by the trips a second."""
    Transport.now = over
    runs = {}
    for name, program in (("ours", OURS), ("nng 1.5.2", THEIRS)) * pairs:
        if program:
            median, rate = round_trips(program)
            runs.setdefault(name, []).append((median, rate))
            print(f"round trip of 8 bytes over {over}: {name} {median:.1f} microseconds, {rate:,.0f} a second", flush=True)
    whole = {}
    for name, measured in runs.items():
        whole[name] = median, rate = tuple(statistics.median(values) for values in zip(*measured))
        print(f"median of {len(measured)} runs over {over}: {name} {median:.1f} microseconds, {rate:,.0f} a second", flush=True)
    if len(whole) < 2:
        return 0
    (our_median, our_rate), (their_median, their_rate) = whole.values()
    return (our_median > their_median) + (our_rate < their_rate)


def main():
    if not os.access(OURS, os.X_OK):
        print("skipped: crates/nngcat/out/nngcat isn't built")
        return 0
    if NNG is None:
        print("skipped: the library of nng isn't installed")
        return 0
    if sys.argv[1:] == ["measure"]:
        return sum(measure(over) for over in OVER)
    pairs = (pairs_of_version_1, raw_pairs_of_the_library, pairs_through_devices)
    return run_checks(each=(contexts_ask_ours, replies_to_ours, replier_dies, two_devices, surveys_of_the_library,
                            respondents_of_the_library, topics_of_the_library, pair_and_bus_of_the_library,
                            *pairs, many_of_the_library), ws=pairs)


if __name__ == "__main__":
    sys.exit(main())
