"""Nodes and port mappers on the hosts of a wire. The nodes of host h listen at port 5010 + h."""
import ctypes
import os
import select
import socket
import subprocess
import time

from wire import MAPPER, Wire, address_of

PATIENCE = 60
CLONE_NEWNET = 0x40000000
LIBC = ctypes.CDLL(None)


def release_in(root):
    """The release of OTP that is installed below a folder."""
    code = "io:put_chars(erlang:system_info(otp_release)), halt()."
    return int(subprocess.run(["chroot", root, "erl", "-noinput", "-eval", code], check=True, capture_output=True, text=True).stdout)


def await_line(process, line):
    """Waits until a process has printed this line."""
    until, text = time.monotonic() + PATIENCE, b""
    while not text.endswith(line):
        if not select.select([process.stdout], [], [], max(0, until - time.monotonic()))[0]:
            raise TimeoutError(text)
        more = os.read(process.stdout.fileno(), 1)
        if not more:
            raise EOFError(text)
        text += more


class NotInstalled(Exception):
    """A release of OTP, or a program of ours, that is not there."""


def own_program(name):
    """A program of ours, as the gate leaves it."""
    file = os.path.join(os.path.dirname(os.path.realpath(__file__)), "..", "..", "crates", name, "out", name)
    if not os.path.exists(file):
        raise NotInstalled(os.path.relpath(file))
    return file


class Stage:
    """A wire with its hosts, and the processes on them. `roots` has the folder of each release."""

    def __init__(self, roots):
        self.roots, self.going, self.wire = roots, [], Wire()

    def start(self, host, *words, root="/"):
        environment = {**os.environ, "ERL_EPMD_PORT": MAPPER, "HOME": "/tmp", "ERL_CRASH_DUMP": "/dev/null"}
        process = subprocess.Popen(["ip", "netns", "exec", f"host{host}", "chroot", root, *words], stdin=subprocess.PIPE,
                                   stdout=subprocess.PIPE, stderr=subprocess.DEVNULL, env=environment)
        self.going.append(process)
        return process

    def root(self, release):
        if release not in self.roots:
            raise NotInstalled(f"OTP {release}")
        return self.roots[release]

    def mapper(self, host, release):
        """A port mapper that listens."""
        process = self.start(host, "epmd", root=self.root(release))
        until = time.monotonic() + PATIENCE
        while time.monotonic() < until:
            with self.socket_on(host) as probe:
                if probe.connect_ex(("127.0.0.1", int(MAPPER))) == 0:
                    return process
            time.sleep(0.05)
        raise TimeoutError("no port mapper")

    def node(self, host, name, release, *words, cookie="secret", then="ok", style="-name"):
        """A node that is up, and does what `then` says."""
        node = name if "@" in name else f"{name}@{address_of(host)}"
        words = [style, node, "-setcookie", cookie, "-start_epmd", "false", "-kernel", "inet_dist_listen_min", str(5010 + host),
                 "inet_dist_listen_max", str(5010 + host), *words]
        process = self.start(host, "erl", "-noshell", *words, "-eval", f'io:put_chars("ready\\n"), {then}.', root=self.root(release))
        await_line(process, b"ready\n")
        return process

    def dial(self, host, name, release, target, *words, **more):
        """A node that dials another one, and then ends."""
        node = self.node(host, name, release, *words, then=f"net_kernel:connect_node('{target}'), halt()", **more)
        node.wait(PATIENCE)

    def socket_on(self, host):
        """A socket on a host."""
        home, there = os.open("/proc/thread-self/ns/net", os.O_RDONLY), os.open(f"/run/netns/host{host}", os.O_RDONLY)
        LIBC.setns(there, CLONE_NEWNET)
        made = socket.socket(socket.AF_INET, socket.SOCK_STREAM)
        LIBC.setns(home, CLONE_NEWNET)
        os.close(home)
        os.close(there)
        made.settimeout(PATIENCE)
        return made

    def connection(self, host, target, port):
        """A connection from a host to a port of another one."""
        made = self.socket_on(host)
        made.connect((address_of(target), port))
        return made

    def stop(self):
        """Ends what runs, the last first, and then the wire. Returns what was captured."""
        for process in reversed(self.going):
            process.kill()
            process.wait(PATIENCE)
        time.sleep(0.3)
        return self.wire.stop()
