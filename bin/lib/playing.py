"""What the scripts share that play with programs over the loopback: ports, connections, frames, and programs that are started and ended.

A script beside it imports it as it stands; one elsewhere puts this folder into `sys.path` first. Each sets `sys.dont_write_bytecode`
before, so that nothing compiled is left in the tree. No part of a program, and nothing that is installed."""
import contextlib
import hashlib
import itertools
import os
import random
import resource
import signal
import socket
import struct
import subprocess
import threading
import time

HOST = "127.0.0.1"
# Whether an emulator runs the programs (bin/check_arm64): its memory, threads and waits are not theirs.
IS_EMULATED = "EMULATED" in os.environ
ROOT = os.path.dirname(os.path.dirname(os.path.dirname(os.path.realpath(__file__))))


# Ports and waiting


def free_ports(count):
    """So many ports of this host at which nobody listens, below those that Linux gives to connections, which could take them meanwhile.
    Nobody listens here either, since a program that another thread starts has what is open until it runs."""
    ports = set()
    with contextlib.ExitStack() as held:
        while len(ports) < count:
            port, it = random.randrange(10000, 32768), held.enter_context(socket.socket())
            it.setsockopt(socket.SOL_SOCKET, socket.SO_REUSEADDR, 1)
            with contextlib.suppress(OSError):
                it.bind((HOST, port))
                ports.add(port)
    return list(ports)


def free_port():
    return free_ports(1)[0]


def is_open(port):
    """Whether somebody listens at a port of this host."""
    with socket.socket() as it:
        return it.connect_ex((HOST, port)) == 0


def wait_until(is_so, seconds, pause=0.02):
    """Waits for so many seconds at most until something is so, and returns whether it is."""
    until = time.monotonic() + seconds
    while not is_so():
        if time.monotonic() > until:
            return False
        time.sleep(pause)
    return True


# Connections and frames


def come(port, seconds, source=None):
    """A connection to a port of this host, from another address of it where one is named. Each of its calls waits for so many seconds at most."""
    return socket.create_connection((HOST, port), seconds, source and (source, 0))


def first_connection(run, port, seconds):
    """The first connection that a program takes at a port. It is waited for until the program ends, and for so many seconds at most."""
    until = time.monotonic() + seconds
    while True:
        try:
            return come(port, seconds)
        except ConnectionRefusedError:
            if time.monotonic() > until or run.poll() is not None:
                raise
            time.sleep(0.01)


def frame(body):
    """A body behind its length in two bytes, as the handshake and the port mapper's requests have it."""
    return struct.pack(">H", len(body)) + body


def read(it, count):
    """So many bytes, or those up to the end."""
    got = b""
    while len(got) < count and (part := it.recv(count - len(got))):
        got += part
    return got


def read_frame(it):
    """The body of a frame, or what has come of it up to the end: nothing where not even the length has."""
    head = read(it, 2)
    return read(it, struct.unpack(">H", head)[0]) if len(head) == 2 else b""


def read_all(it, is_reset_end=False):
    """All that comes up to the end of a connection; a reset is an end too where it is said so."""
    parts = []
    try:
        while part := it.recv(65536):
            parts.append(part)
    except ConnectionResetError:
        if not is_reset_end:
            raise
    return b"".join(parts)


class Peer(threading.Thread):
    """Whoever listens at a port that was free, and answers each connection, one after the other, by a function: so many of them, or all
    that come. A connection that fails, or that ends inside a frame, is over."""

    def __init__(self, answer, seconds, count=None):
        super().__init__(daemon=True)
        self.answer, self.seconds, self.count = answer, seconds, count
        self.listener = socket.create_server((HOST, 0))
        self.port = self.listener.getsockname()[1]
        self.start()

    def run(self):
        with self.listener:
            for _ in itertools.count() if self.count is None else range(self.count):
                stream, _ = self.listener.accept()
                with stream, contextlib.suppress(OSError, struct.error):
                    stream.settimeout(self.seconds)
                    self.answer(stream)


# What is said


def asked(port, question, seconds):
    """All that a port mapper answers to a request. Source: ERTS User's Guide, EPMD Protocol."""
    with come(port, seconds) as it:
        it.sendall(frame(question))
        return read_all(it)


def is_registered(port, name, seconds):
    """Whether a port mapper knows the node of this name: PORT_PLEASE2_REQ."""
    try:
        return asked(port, b"z" + name, seconds)[:2] == b"w\0"
    except OSError:
        return False


def fields(name, extra=b""):
    """What a node at port 9001 registers of itself. Source: ERTS User's Guide, EPMD Protocol."""
    return b"\x23\x29M\0\0\x06\0\x05" + frame(name) + frame(extra)


def registration(name):
    """ALIVE2_REQ."""
    return frame(b"x" + fields(name))


def digest(cookie, challenge):
    return hashlib.md5(cookie + str(challenge).encode()).digest()


def come_up(it, name, cookie, flags, pause=0):
    """Plays the handshake of version 6 as the side that connects, and returns None where the connection is up, or what was said in place
    of that. The reply comes so many seconds behind the challenge. Source: ERTS User's Guide, Distribution Handshake."""

    def hear():
        body = read_frame(it)
        if not body:
            raise ConnectionError("closed")
        return body

    it.sendall(frame(b"N" + struct.pack(">QIH", flags, 9, len(name)) + name))
    status = hear()
    if status != b"sok":
        return status.decode(errors="replace")
    theirs = struct.unpack(">I", hear()[9:13])[0]
    time.sleep(pause)
    it.sendall(frame(b"r" + struct.pack(">I", 5) + digest(cookie, theirs)))
    return None if hear() == b"a" + digest(cookie, 5) else "another digest"


class Node(Peer):
    """A node that accepts, as OTP 25 does (ERTS User's Guide, Distribution Handshake), registered at a port mapper. It stays until its
    peer leaves; one that has its cookie gets these bytes behind the handshake. A node may give itself another name than its own."""

    CHALLENGE = 99

    def __init__(self, mapper, name, cookie, seconds, behind=b"", says=None, flags=0xD07DF7FBD, creation=1795494263):
        self.cookie, self.behind, self.says, self.flags, self.creation = cookie.encode(), behind, (says or name).encode(), flags, creation
        super().__init__(self.talk, seconds)
        self.mapper = come(mapper, seconds)
        self.mapper.sendall(frame(b"x" + struct.pack(">H", self.port) + fields(name.split("@")[0].encode())[2:]))
        if self.mapper.recv(2) not in (b"v\0", b"x\0"):
            raise ConnectionError(f"the port mapper does not register {name}")

    def talk(self, it):
        read_frame(it)
        it.sendall(frame(b"sok"))
        it.sendall(frame(struct.pack(">cQIIH", b"N", self.flags, self.CHALLENGE, self.creation, len(self.says)) + self.says))
        reply = read_frame(it)
        if reply[5:21] == digest(self.cookie, self.CHALLENGE):
            it.sendall(frame(b"a" + digest(self.cookie, struct.unpack(">I", reply[1:5])[0])) + self.behind)
            read_all(it, is_reset_end=True)


# Programs


def end(run, number=signal.SIGKILL):
    """Ends a program by a signal, and waits until it has ended."""
    run.send_signal(number)
    run.wait()


@contextlib.contextmanager
def running(*words, **how):
    """A program at work, which is ended with the block."""
    run = subprocess.Popen(words, **how)
    try:
        yield run
    finally:
        end(run)


def finish(run, seconds, said=None):
    """Both outputs of a program that is given this input, up to its end. It is killed after so many seconds."""
    try:
        return run.communicate(said, seconds)
    except subprocess.TimeoutExpired:
        run.kill()
        return run.communicate()


def line_of(run, seconds):
    """The next line that a program prints, without its end. It is killed, and prints no more, where none comes for so many seconds."""
    late = threading.Timer(seconds, run.kill)
    late.start()
    try:
        return run.stdout.readline().rstrip("\n")
    finally:
        late.cancel()


class Mapper:
    """The port mapper of a program at a port that was free, with these words, and so many descriptors at most. Each answer is waited for so
    many seconds at most."""

    def __init__(self, program, seconds, *words, descriptors=None, **how):
        self.port, self.seconds = free_port(), seconds
        limit = descriptors and (lambda: resource.setrlimit(resource.RLIMIT_NOFILE, (descriptors, descriptors)))
        self.runs = subprocess.Popen([program, "-port", str(self.port), *words], preexec_fn=limit or None, **how)
        self.head = struct.pack(">I", self.port)
        first_connection(self.runs, self.port, seconds).close()

    def come(self, said=b"", source=None):
        it = come(self.port, self.seconds, source)
        it.setsockopt(socket.IPPROTO_TCP, socket.TCP_NODELAY, 1)
        it.sendall(said)
        return it

    def asked(self, said):
        """All that is said on a connection to its end; a reset is an end too."""
        with self.come(said) as it:
            return read_all(it, is_reset_end=True)

    def memory(self, what="VmHWM"):
        """In KiB: the most that it had, or what it has where that is named."""
        with open(f"/proc/{self.runs.pid}/status", encoding="ascii") as it:
            return int(it.read().split(what + ":")[1].split()[0])

    def __enter__(self):
        return self

    def __exit__(self, *_):
        end(self.runs)
