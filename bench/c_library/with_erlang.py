"""Joins a real Erlang node by examples/c/join.c and by examples/python/join.py, in turn as the one that is dialled and the one
that dials, both at one time, and sees that all four connections live through the ticks of so many seconds, at a net_ticktime of
4, and that the end of the Erlang node is noticed. Loopback connections alone, and a port mapper of its own for each pair: the
first has Erlang's, and the second examples/python/mapper.py, a registry of the library. The cookie is no word of any command
line: the node in C has it from the file that is named, the one in Python from the environment, Erlang's from the home folder.

usage: with_erlang.py SECONDS JOIN-PROGRAM
"""

import os
import signal
import subprocess
import sys
import tempfile

HERE = os.path.dirname(os.path.realpath(__file__))
sys.dont_write_bytecode = True
sys.path.insert(0, os.path.join(HERE, "../../bin/lib"))
import playing

EXAMPLES = os.path.join(HERE, "../../examples/python")
PYTHON, MAPPER = (os.path.join(EXAMPLES, it) for it in ("join.py", "mapper.py"))
COOKIE = "secretCookie"
ERL = """true = net_kernel:connect_node('c@127.0.0.1'),
    Wait = fun(W, 0) -> ok; (W, N) -> case length(nodes(hidden)) of 2 -> ok; _ -> timer:sleep(100), W(W, N - 1) end end,
    Wait(Wait, 100), io:format("~p ~p~n", [lists:sort(nodes(hidden)), nodes()]),
    timer:sleep(SECONDS * 1000), io:format("~p~n", [lists:sort(nodes(hidden))]), halt()."""


class Pair:
    """A port mapper, an Erlang node x, a node c that it dials, and a node d that dials it."""

    def __init__(self, home, seconds, mapper, accepting, dialling):
        self.port, self.most, self.running = playing.free_port(), seconds + 60, []
        self.env = dict(os.environ, HOME=home, DISTNODE_COOKIE=COOKIE, ERL_EPMD_PORT=str(self.port), ERL_EPMD_ADDRESS="127.0.0.1")
        self.start(*mapper(str(self.port)))
        playing.wait_until(lambda: playing.is_open(self.port), 5, 0.05)
        self.c = self.start(*accepting("c@127.0.0.1", self.most, None))
        assert self.line(self.c) == "ready"
        text = ERL.replace("SECONDS", str(seconds))
        self.x = self.start("erl", "-noinput", "-name", "x@127.0.0.1", "-kernel", "net_ticktime", "4",
                            "inet_dist_use_interface", "{127,0,0,1}", "-eval", text)
        assert self.line(self.c).startswith("up x@127.0.0.1 ")
        self.d = self.start(*dialling("d@127.0.0.1", self.most, "x@127.0.0.1"))
        assert self.line(self.d) == "ready"
        assert self.line(self.d).startswith("up x@127.0.0.1 ")
        listed = subprocess.run(["epmd", "-names"], env=self.env, capture_output=True, text=True, check=True).stdout.splitlines()
        assert sorted(it.split()[1] for it in listed if it.startswith("name ")) == ["c", "d", "x"], listed

    def start(self, *words):
        # (the port mapper reports the connection that looks whether it is there)
        said = subprocess.DEVNULL if words[0] == "epmd" else None
        it = subprocess.Popen(words, env=self.env, stdout=subprocess.PIPE, stderr=said, text=True)
        self.running.append(it)
        return it

    def line(self, it):
        return playing.line_of(it, self.most)

    def end(self):
        both = "['c@127.0.0.1','d@127.0.0.1']"
        said = [self.line(self.x).strip(), self.line(self.x).strip()]
        assert said == [both + " []", both], said
        self.x.wait(30)
        for it in (self.c, self.d):
            line = self.line(it)
            assert line.lower().startswith("down x@127.0.0.1 ended"), line

    def stop(self):
        for it in self.running:
            playing.end(it, signal.SIGTERM)


def join(home, seconds, program):
    cookie = os.path.join(home, ".erlang.cookie")
    with open(cookie, "w", encoding="ascii") as it:
        it.write(COOKIE)
    os.chmod(cookie, 0o400)

    def by_c(name, most, peer):
        return [program, "--cookie", cookie, name, "1", str(most), *([peer] if peer else [])]

    def by_python(name, most, peer):
        return [sys.executable, "-u", PYTHON, name, "--tick", "1", "--seconds", str(most), *(["--dial", peer] if peer else [])]

    def epmd(_):
        return ["epmd"]

    def own(port):
        return [sys.executable, "-u", MAPPER, "--port", port]

    pairs = []
    try:
        for kinds in ((epmd, by_c, by_python), (own, by_python, by_c)):
            pairs.append(Pair(home, seconds, *kinds))
        for it in pairs:
            it.end()
    finally:
        for it in pairs:
            it.stop()


def main(seconds, program):
    with tempfile.TemporaryDirectory(prefix="with-erlang-") as home:
        join(home, seconds, program)
    print(f"erlang: C and Python, dialled and dialling, stayed up through {seconds} seconds of ticks and saw the node end, by epmd and by a registry of the library")


main(int(sys.argv[1]), sys.argv[2])
