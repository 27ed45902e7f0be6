"""What is captured on one host, over lo: nodes of OTP and their port mapper, and talks of two sockets. Packet n has the time n ms."""
import os
import signal
import socket
import struct
import subprocess
import tempfile
import threading
import time

import pcap
from stage import own_program
from talks import FLAGS, Talk, ack, challenge, name, old_challenge, old_name, reply, status
from wire import MAPPER


class Capture(threading.Thread):
    """Keeps each packet that lo receives until it is stopped."""

    def __init__(self):
        super().__init__(daemon=True)
        self.socket = socket.socket(socket.AF_PACKET, socket.SOCK_RAW, socket.htons(3))
        self.socket.bind(("lo", 0))
        self.socket.settimeout(0.2)
        self.packets, self.stopped = [], threading.Event()
        self.start()

    def run(self):
        while True:
            try:
                packet, place = self.socket.recvfrom(65536)
            except socket.timeout:
                if self.stopped.is_set():
                    return
                continue
            if place[2] != socket.PACKET_OUTGOING:
                self.packets.append((len(self.packets) / 1000, packet))

    def stop(self):
        self.stopped.set()
        self.join(10)
        return self.packets


def crossing():
    """a and b dial each other at once: b's dial wins, since b is the greater name."""
    lesser, greater = Talk(5001), Talk(5002)
    lesser.say("d", name(FLAGS, 1, b"a@h1"))
    greater.say("d", name(FLAGS, 2, b"b@h1"))
    lesser.say("a", status(b"nok"))
    lesser.close("a")
    greater.say("a", status(b"ok_simultaneous"))
    greater.say("a", challenge(FLAGS, 17, 1, b"a@h1"))
    greater.say("d", reply(b"secret", 17, 18))
    greater.say("a", ack(b"secret", 18))
    greater.close("d")


def crossing_against_the_rule():
    """The same, but a refuses the dial of b, and b takes that of a."""
    lesser, greater = Talk(5008), Talk(5009)
    lesser.say("d", name(FLAGS, 1, b"a@h1"))
    greater.say("d", name(FLAGS, 2, b"b@h1"))
    greater.say("a", status(b"nok"))
    greater.close("a")
    lesser.say("a", status(b"ok"))
    lesser.say("a", challenge(FLAGS, 17, 2, b"b@h1"))
    lesser.say("d", reply(b"secret", 17, 18))
    lesser.say("a", ack(b"secret", 18))
    lesser.close("d")


def alive_false():
    """b counts a as up, and a gave this dial up: it says so, and both close."""
    talk = Talk(5006)
    talk.say("d", name(FLAGS, 1, b"a@h1"))
    talk.say("a", status(b"alive"))
    talk.say("d", status(b"false"))
    talk.close("d")


def version_5():
    talk = Talk(5003)
    talk.say("d", old_name(0x7DF7FBD & ~0x1000000, b"a@h1"))
    talk.say("a", status(b"ok"))
    talk.say("a", old_challenge(0x7DF7FBD & ~0x1000000, 3_000_000_000, b"b@h1"))
    talk.say("d", reply(b"secret", 3_000_000_000, 7))
    talk.say("a", ack(b"secret", 7))
    talk.close("a")


def killed():
    talk = Talk(5004)
    talk.say("d", name(FLAGS, 1, b"a@h1"))
    talk.say("a", status(b"ok"))
    talk.say("a", challenge(FLAGS, 17, 2, b"b@h1"))
    talk.say("d", reply(b"secret", 17, 18))
    talk.reset("a")


def erl(short, cookie, port, code):
    words = ["erl", "-noinput", "-name", short + "@127.0.0.1", "-setcookie", cookie, "-kernel", "inet_dist_listen_min", str(port)]
    words += ["inet_dist_listen_max", str(port), *(["dist_auto_connect", "never"] if short == "b" else []), "-eval", code]
    return subprocess.Popen(words, stdout=subprocess.PIPE, stderr=subprocess.DEVNULL)


def otp(cookie):
    """a of OTP dials b of OTP."""
    mapper = subprocess.Popen(["epmd"], stderr=subprocess.DEVNULL)
    try:
        b = erl("b", "secret", 5012, 'io:put_chars("ready\\n").')
        b.stdout.readline()
        a = erl("a", cookie, 5011, "net_adm:ping('b@127.0.0.1'), halt().")
        a.wait(30)
        b.send_signal(signal.SIGKILL)
        b.wait(30)
    finally:
        mapper.kill()
        mapper.wait(10)


def ours():
    """A node of ours, at a port mapper of ours; c of OTP dials it."""
    with tempfile.NamedTemporaryFile("w", suffix=".toml") as file:
        file.write(f'port = {MAPPER}\nturns = 400\nnode = [{{ name = "a@127.0.0.1", cookie = "secret", flags = "403070f94" }}]\n')
        file.flush()
        run = subprocess.Popen([own_program("distnode"), "run", file.name], stdout=subprocess.DEVNULL)
        time.sleep(0.5)
        erl("c", "secret", 5013, "net_kernel:connect_node('a@127.0.0.1'), halt().").wait(30)
        run.wait(30)


def is_of_b(packet):
    """Whether a packet comes from the port of b, or goes there."""
    return struct.pack(">H", 5012) in (packet[34:36], packet[36:38])


def is_said_by_b(packet, tag):
    """Whether b says a message of this tag in a packet, behind the headers of Ethernet, IPv4 and TCP."""
    behind = 34 + 4 * (packet[46] >> 4)
    return packet[34:36] == struct.pack(">H", 5012) and packet[behind + 2:behind + 3] == tag


PLAYS = {"crossing": crossing, "crossing_against_the_rule": crossing_against_the_rule, "alive_false": alive_false, "version_5": version_5,
         "killed": killed, "ours": ours, "up": lambda: otp("secret"), "wrong_cookie": lambda: otp("other")}


def perform(title):
    """Performs a play, and returns its captures, some of them without some packets."""
    recorder = Capture()
    PLAYS[title]()
    packets = recorder.stop()
    made = {title: packets}
    if title == "killed":
        made["cut"] = packets[:7]
    if title == "up":
        made["gap"] = [it for it in packets if not is_said_by_b(it[1], b"N")]
        first = next(at for at, it in enumerate(packets) if is_said_by_b(it[1], b"s"))
        made["late"] = [it for at, it in enumerate(packets) if at >= first or not is_of_b(it[1])]
    return {name: pcap.capture(kept, pcap.ETHERNET) for name, kept in made.items()}
