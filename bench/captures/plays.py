"""What is captured between hosts that a wire joins: real nodes of OTP, and sockets for what no node of OTP does. a is on host 1 and b on
host 2, if nothing else is said. A play has a name for each of its captures; numbers in a name are releases.
"""
import os
import signal
import struct
import subprocess
import tempfile
import time

import pcap
import talks
from stage import Stage, await_line, own_program
from wire import FIN, MAPPER, SYN, Packet

A, B, Z = "a@10.0.0.1", "b@10.0.0.2", "z@10.0.0.1"
PLAYS = {}


def play(*titles):
    def note(function):
        PLAYS.update(dict.fromkeys(titles, function))
        return function
    return note


def releases_in(title):
    return [int(word) for word in title.split("_") if word.isdigit()]


def open_b(stage, one, two, **more):
    """Port mappers on both hosts, and b, which dials nobody by itself."""
    stage.mapper(1, one)
    stage.mapper(2, two)
    return stage.node(2, "b", two, "-kernel", "dist_auto_connect", "never", **more)


@play("up_25_27", "up_27_29", "up_29_25", "lacks_flags_23_29", "left_29_23")
def dial(stage, title):
    """Two nodes of these releases; a dials b."""
    one, two = releases_in(title)
    open_b(stage, one, two)
    stage.dial(1, "a", one, B)


@play("wrong_cookie_25_27", "wrong_cookie_27_29")
def wrong_cookie(stage, title):
    one, two = releases_in(title)
    open_b(stage, one, two)
    stage.dial(1, "a", one, B, cookie="other")


@play("cookie_for_one")
def cookie_for_one(stage, _):
    """b has another cookie for a alone."""
    open_b(stage, 25, 27, then=f"erlang:set_cookie('{A}', other)")
    stage.dial(1, "a", 25, B)


@play("restart")
def restart(stage, _):
    open_b(stage, 27, 25)
    stage.dial(1, "a", 27, B)
    stage.dial(1, "a", 27, B)


@play("not_on_list")
def not_on_list(stage, _):
    open_b(stage, 25, 27, then="net_kernel:allow(['c@10.0.0.3'])")
    stage.dial(1, "a", 25, B)


@play("dynamic")
def dynamic(stage, _):
    """A node that asks for a name."""
    open_b(stage, 25, 27)
    stage.dial(1, "undefined@10.0.0.1", 25, B)


@play("other_name")
def other_name(stage, _):
    """b answers where c was dialled."""
    open_b(stage, 25, 27)
    stage.dial(1, "a", 25, "c@10.0.0.2", "-erl_epmd_port", "5012")


@play("probe")
def probe(stage, _):
    """distping asks b without a cookie."""
    open_b(stage, 25, 27)
    stage.start(1, own_program("distping"), B, "--no-cookie", "--epmd-port", MAPPER).wait(30)


@play("ipv6")
def ipv6(stage, _):
    stage.mapper(1, 29)
    stage.mapper(2, 27)
    stage.node(2, "b@fd00::2", 27, "-proto_dist", "inet6_tcp")
    stage.dial(1, "a@fd00::1", 29, "b@fd00::2", "-proto_dist", "inet6_tcp")


@play("tls")
def tls(stage, _):
    """a dials b over TLS. Both have one certificate, which its own key signs."""
    stage.mapper(1, 25)
    stage.mapper(2, 25)
    with tempfile.NamedTemporaryFile() as file:
        kind = ["-x509", "-newkey", "ec", "-pkeyopt", "ec_paramgen_curve:prime256v1", "-nodes", "-subj", "/CN=node"]
        subprocess.run(["openssl", "req", *kind, "-keyout", file.name, "-out", file.name], check=True, stderr=subprocess.DEVNULL)
        words = ["-proto_dist", "inet_tls", "-ssl_dist_opt", "server_certfile", file.name]
        stage.node(2, "b", 25, *words)
        a = stage.node(1, "a", 25, *words, then=f"true = net_kernel:connect_node('{B}'), io:put_chars(\"up\\n\")")
        await_line(a, b"up\n")


@play("c_node")
def c_node(stage, _):
    """A node in C, of Erlang's library for C."""
    open_b(stage, 25, 29)
    stage.start(1, "erl_call", "-c", "secret", "-h", "a", "-name", B, "-a", "erlang node").wait(30)


@play("alive_true")
def alive_true(stage, _):
    """a is killed, and b does not get to know it; a is started again, and dials."""
    open_b(stage, 27, 25)
    old = stage.node(1, "a", 27, then=f"net_kernel:connect_node('{B}'), io:put_chars(\"up\\n\")")
    await_line(old, b"up\n")
    port = next(it.source_port for it in (Packet(data) for _, data in stage.wire.captured) if it.target_port == 5012)
    stage.wire.rule = lambda packet: [] if packet.is_of(port) else [0]
    old.kill()
    old.wait()
    stage.dial(1, "a", 27, B)


@play("two_hosts_of_one_name")
def two_hosts_of_one_name(stage, _):
    """Two nodes of one name, on two hosts, dial b. Creations of two port mappers differ if their seconds do."""
    open_b(stage, 25, 27)
    stage.mapper(3, 29)
    first = stage.node(1, "a@node.example", 25, then=f"net_kernel:connect_node('{B}'), io:put_chars(\"up\\n\")")
    await_line(first, b"up\n")
    time.sleep(2)
    stage.dial(3, "a@node.example", 29, B)


def cross(stage, *nodes):
    """Nodes dial each other at once, over a wire of 20 milliseconds."""
    stage.wire.rule = lambda packet: [0.02]
    for node in nodes:
        node.stdin.write(b"go\n")
        node.stdin.flush()
        time.sleep(0.04)
    for node in nodes:
        node.wait(30)
    time.sleep(0.2)


def waiting_node(stage, host, name, release, target):
    """A node that dials another one as soon as it gets a line."""
    stage.mapper(host, release)
    return stage.node(host, name, release, then=f"io:get_line(\"\"), net_kernel:connect_node('{target}'), timer:sleep(60), halt()")


@play("crossing_25_27")
def crossing(stage, _):
    cross(stage, waiting_node(stage, 1, "a", 25, B), waiting_node(stage, 2, "b", 27, A))


@play("crossing_29_27")
def crossing_with_greater(stage, _):
    """z on host 1 has a greater name than b."""
    cross(stage, waiting_node(stage, 2, "b", 27, Z), waiting_node(stage, 1, "z", 29, B))


@play("silent_acceptor")
def silent_acceptor(stage, _):
    """b is stopped: its host takes the connection, and b says nothing."""
    open_b(stage, 25, 27).send_signal(signal.SIGSTOP)
    stage.dial(1, "a", 25, B)


@play("silent_dialler")
def silent_dialler(stage, _):
    """Who dials says a name, and nothing behind it."""
    open_b(stage, 25, 27)
    with stage.connection(1, 2, 5012) as talk:
        talk.sendall(talks.name(talks.FLAGS, 1, A.encode()))
        while talk.recv(1000):
            pass


@play("firewall_seen_by_dialler", "firewall_seen_by_acceptor")
def firewall(stage, title):
    """What b says is dropped on the way, and what has no payload passes."""
    open_b(stage, 25, 27)
    stage.wire.seen_by = 1 if title.endswith("dialler") else 2
    stage.wire.rule = lambda packet: [] if packet.source_port == 5012 and packet.payload else [0]
    stage.dial(1, "a", 25, B)


@play("retransmitted")
def retransmitted(stage, _):
    """The first copy of each message is lost behind the host that captures."""
    open_b(stage, 25, 27)
    seen = set()

    def lose_first(packet):
        is_first = packet.payload not in seen
        seen.add(packet.payload)
        return [] if packet.is_of(5012) and packet.says(b"N", b"s", b"r", b"a") and is_first else [0]

    stage.wire.rule = lose_first
    stage.dial(1, "a", 25, B)


@play("reordered")
def reordered(stage, _):
    """The status arrives behind the challenge."""
    open_b(stage, 25, 27)
    stage.wire.seen_by = 1
    stage.wire.rule = lambda packet: [0.0025] if packet.says(b"s") else [0]
    stage.dial(1, "a", 25, B)


def register(stage, host, name, port, highest, lowest):
    """Registers a name, and keeps it."""
    mapper = stage.socket_on(host)
    mapper.connect(("127.0.0.1", int(MAPPER)))
    mapper.sendall(talks.frame(struct.pack(">BHBBHHH", 120, port, 77, 0, highest, lowest, len(name)) + name + bytes(2)))
    talks.exactly(mapper, 2)
    return mapper


@play("complement_23_23")
def complement(stage, _):
    """b is registered as a node of version 5 alone, so a of OTP 23 says the older name, and then its complement."""
    stage.mapper(1, 23)
    stage.mapper(2, 23)
    with register(stage, 2, b"b", 5012, 5, 5):
        stage.node(2, "b", 23, "-erl_epmd_port", "5012")
        stage.dial(1, "a", 23, B)


def answer(connection):
    """Replies to a challenge, and takes the acknowledgement."""
    number = struct.unpack_from(">I", talks.body_of(connection), 9)[0]
    connection.sendall(talks.reply(b"secret", number, 18))
    talks.body_of(connection)


def begin(stage, name):
    """A connection to b that begins with this name."""
    connection = stage.connection(1, 2, 5012)
    connection.sendall(talks.name(talks.HIDDEN, 1, name.encode()))
    return connection


def end(connection):
    """Takes what comes until b closes, and closes too."""
    while connection.recv(1000):
        pass
    connection.close()


@play("second_dial")
def second_dial(stage, _):
    """Whoever dials b dials it again while b still holds the last connection half made. Of a, the lesser name, b refuses the second dial,
    and the first comes up. Of z it closes the first, and the second comes up; upon the third it asks whether that one is still up, and it
    closes the fourth without a word."""
    open_b(stage, 25, 25)
    with stage.connection(1, 2, int(MAPPER)) as mapper:
        mapper.sendall(talks.frame(b"zb"))
        mapper.recv(1000)
    first = begin(stage, A)
    talks.body_of(first)
    end(begin(stage, A))
    answer(first)
    first.close()
    time.sleep(0.02)
    first = begin(stage, Z)
    talks.body_of(first)
    talks.body_of(first)
    second = begin(stage, Z)
    talks.body_of(second)
    end(first)
    answer(second)
    third = begin(stage, Z)
    talks.body_of(third)
    end(begin(stage, Z))
    third.sendall(talks.status(b"false"))
    end(third)
    second.close()


@play("many")
def many(stage, _):
    """25 at once. The capture has their handshakes and ends alone."""
    open_b(stage, 25, 27)
    stage.wire.keep = lambda packet: packet.says(b"N", b"s", b"r", b"a") and packet.payload[0] == 0 or packet.flags & (SYN | FIN)
    names = [b"c%d@10.0.0.1" % number for number in range(25)]
    connections = [stage.connection(1, 2, 5012) for _ in names]
    for connection, name in zip(connections, names):
        connection.sendall(talks.name(talks.HIDDEN, 1, name))
    for connection in connections:
        talks.body_of(connection)
    for connection in connections:
        answer(connection)
    for connection in connections:
        connection.close()
        time.sleep(0.02)


@play("fell_silent")
def fell_silent(stage, _):
    """a is stopped while the two are up, so b gives it up after its net_ticktime."""
    open_b(stage, 25, 27)
    a = stage.node(1, "a", 25, then=f"net_kernel:connect_node('{B}'), io:put_chars(\"up\\n\")")
    await_line(a, b"up\n")
    time.sleep(1)
    a.send_signal(signal.SIGSTOP)
    time.sleep(85)


@play("unreached")
def unreached(stage, _):
    """b is registered at a port where nobody listens. Then a firewall drops what goes there. a then asks for c, which is not there."""
    stage.mapper(1, 25)
    stage.mapper(2, 25)
    stage.wire.seen_by = 1
    with register(stage, 2, b"b", 5012, 6, 5):
        stage.dial(1, "a", 25, B)
        stage.wire.rule = lambda packet: [] if packet.target_port == 5012 else [0]
        stage.dial(1, "a", 25, B)
        stage.dial(1, "a", 25, "c@10.0.0.2")


def captured_by(stage, program, *words):
    """What a program captures on host 2 while b starts, and a dials it: the name of its file."""
    file = f"/tmp/captured-{os.getpid()}"
    stage.mapper(1, 25)
    stage.mapper(2, 27)
    recorder = stage.start(2, program, *words, "-w", file)
    while not os.path.exists(file):
        time.sleep(0.1)
    time.sleep(1)
    stage.node(2, "b", 27, "-kernel", "dist_auto_connect", "never")
    stage.dial(1, "a", 25, B)
    time.sleep(0.5)
    recorder.terminate()
    recorder.wait(30)
    return file


def content(file):
    """The bytes of a file, which is then removed."""
    with open(file, "rb") as it:
        captured = it.read()
    os.unlink(file)
    return captured


@play("any_interface")
def any_interface(stage, _):
    """tcpdump at all interfaces: so the registration of b is seen too, and the link is Linux cooked."""
    return content(captured_by(stage, "tcpdump", "-i", "any", "-U", "-Z", "root", "tcp"))


@play("pcapng")
def pcapng(stage, _):
    """tshark writes pcapng, in nanoseconds. What it says of the machine is left out."""
    file = captured_by(stage, "tshark", "-i", "wire2", "-f", "tcp")
    subprocess.run(["editcap", "-F", "nsecpcap", file, file + ".pcap"], check=True)
    subprocess.run(["editcap", "-F", "pcapng", file + ".pcap", file], check=True)
    os.unlink(file + ".pcap")
    return content(file)


def without(packets, port, *tags):
    """Packets, but for those in which a node at a port says a message of these tags."""
    return [it for it in packets if not (Packet(it[1]).says(*tags) and Packet(it[1]).source_port == port)]


def derived(title, packets):
    """Further captures that are made of these packets: with a beginning or some packets missing, or with packets cut off."""
    if title != "up_25_27":
        return {}
    reply = next(at for at, it in enumerate(packets) if Packet(it[1]).says(b"r"))
    dialler = Packet(packets[reply][1]).source_port
    return {"late_reply": pcap.capture(packets[reply:], pcap.RAW), "gap_of_dialler": pcap.capture(without(packets, dialler, b"r"), pcap.RAW),
            "cut_payloads": pcap.capture(packets, pcap.RAW, most=60)}


def perform(title, roots):
    """Performs a play on the hosts of a wire, and returns its captures."""
    stage = Stage(roots)
    try:
        captured = PLAYS[title](stage, title)
    finally:
        packets = stage.stop()
    return {title: captured or pcap.capture(packets, pcap.RAW), **derived(title, packets)}
