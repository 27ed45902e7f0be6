// SPDX-License-Identifier: Apache-2.0

// Command join is a hidden node in Go: it registers with the port mapper, dials one node, accepts others, and keeps its links
// by ticks.
//
//	join NAME PEER SECONDS
//
// It prints a line when a peer comes up and when it goes down, and ends after so many seconds, or with the link to PEER. The
// cookie is that of DISTNODE_COOKIE in the environment, else of $HOME/.erlang.cookie. The port mapper is the one at
// ERL_EPMD_PORT, 4369 if unset. It answers net_adm:ping; all else that Erlang's processes say to it is dropped. Each connection
// has a goroutine, and they use the node in turn.
package main

import (
	"crypto/rand"
	"encoding/binary"
	"errors"
	"fmt"
	"io"
	"net"
	"os"
	"strings"
	"sync"
	"time"

	"distnode"
)

const (
	hiddenFlags = 0x403070f94      // as an Erlang node of OTP 25 announces them, but for DFLAG_PUBLISHED
	mandatory25 = 0x1070f94        // those that OTP 25 requires of a peer
	tick        = 15 * time.Second // a quarter of the peer's net_ticktime
	patience    = 8 * time.Second  // of a connect, of an answer and of a message of the handshake
	mostOpen    = 512              // ends that are open at one time: a process has 1,024 descriptors by custom
	forgetEach  = 65536            // ends, after which the node gives back what it kept of those that are closed
)

// joined is what the goroutines use in turn: the node, and the connections that carry its ends.
type joined struct {
	sync.Mutex
	node  *distnode.Node
	conns map[uint32]net.Conn
}

// link is a connection that carries one end of the node.
type link struct {
	net.Conn
	all  *joined
	end  uint32
	held []byte
}

func mapperPort() string {
	if port := os.Getenv("ERL_EPMD_PORT"); port != "" {
		return port
	}
	return "4369"
}

func cookie() ([]byte, error) {
	if text, is := os.LookupEnv("DISTNODE_COOKIE"); is {
		return []byte(text), nil
	}
	return os.ReadFile(os.Getenv("HOME") + "/.erlang.cookie")
}

func connect(host, port string) (net.Conn, error) {
	conn, err := net.DialTimeout("tcp", net.JoinHostPort(host, port), patience)
	if err == nil {
		err = conn.SetDeadline(time.Now().Add(patience))
	}
	return conn, err
}

// register returns the connection that the registration lasts as long as, and the creation.
func register(alive string, port uint16) (net.Conn, uint32, error) {
	conn, err := connect("127.0.0.1", mapperPort())
	if err != nil {
		return nil, 0, err
	}
	request, err := distnode.AliveRequest(distnode.Info{Port: port, Highest: 6, Lowest: 5, NodeType: distnode.Hidden}, []byte(alive))
	if err != nil {
		return nil, 0, err
	}
	if _, err = conn.Write(request); err != nil {
		return nil, 0, err
	}
	answer := make([]byte, 6)
	if _, err = io.ReadFull(conn, answer); err != nil {
		return nil, 0, err
	}
	creation, accepted, err := distnode.AliveAnswer(answer)
	if err == nil && !accepted {
		err = errors.New("the port mapper refuses the name")
	}
	return conn, creation, err
}

// connectTo asks the port mapper of a peer's host for its port, and connects.
func connectTo(peer string) (net.Conn, error) {
	alive, host, _ := strings.Cut(peer, "@")
	asked, err := connect(host, mapperPort())
	if err != nil {
		return nil, err
	}
	defer asked.Close()
	request, err := distnode.PortRequest([]byte(alive))
	if err != nil {
		return nil, err
	}
	if _, err = asked.Write(request); err != nil {
		return nil, err
	}
	answer, err := io.ReadAll(asked)
	if err != nil {
		return nil, err
	}
	info, known, err := distnode.PortAnswer(answer)
	if err == nil && !known {
		err = errors.New("the port mapper knows no such node")
	}
	if err != nil {
		return nil, err
	}
	return connect(host, fmt.Sprint(info.Port))
}

// newEnd is the end that Dial or Incoming gave out. Where another made room for it, that one's connection is closed, also where
// the newcomer is refused. The caller holds the lock.
func (j *joined) newEnd(reply distnode.Reply, err error) (uint32, error) {
	j.close(reply)
	if err == nil && reply.End%forgetEach == 0 {
		err = j.node.Forget(reply.End)
	}
	return reply.End, err
}

// close closes the connection of an end that a reply reports as closed: the goroutine that reads from it sees that it ended. The
// caller holds the lock.
func (j *joined) close(reply distnode.Reply) {
	if conn, is := j.conns[reply.Other]; is && reply.Closed != 0 {
		conn.Close()
		delete(j.conns, reply.Other)
	}
}

// free lets the node go: a goroutine that still runs is refused as NotANode.
func (j *joined) free() {
	j.Lock()
	defer j.Unlock()
	_ = j.node.Free()
}

// newLink makes a link of an end that was given out. The caller holds the lock.
func (j *joined) newLink(conn net.Conn, end uint32) *link {
	j.conns[end] = conn
	return &link{Conn: conn, all: j, end: end}
}

// dial dials a peer; others use the node while this goroutine connects.
func (j *joined) dial(peer string) (*link, error) {
	j.Lock()
	end, err := j.newEnd(j.node.Dial([]byte(peer), true))
	j.Unlock()
	if err != nil {
		return nil, err
	}
	conn, err := connectTo(peer)
	j.Lock()
	defer j.Unlock()
	if err != nil {
		// (it is refused where the end has made room for another)
		_, _ = j.node.Lost(end, distnode.DialFailed)
		return nil, err
	}
	return j.newLink(conn, end), nil
}

// accept takes a connection that was accepted.
func (j *joined) accept(conn net.Conn) (*link, error) {
	if err := conn.SetDeadline(time.Now().Add(patience)); err != nil {
		conn.Close()
		return nil, err
	}
	j.Lock()
	defer j.Unlock()
	end, err := j.newEnd(j.node.Incoming())
	if err != nil {
		conn.Close()
		return nil, err
	}
	return j.newLink(conn, end), nil
}

// acceptAll accepts for as long as the listener is open. A peer that does not come up is none that a line is printed for.
func (j *joined) acceptAll(listener net.Listener, until time.Time) {
	for {
		conn, err := listener.Accept()
		if err != nil {
			return
		}
		if l, err := j.accept(conn); err == nil {
			go l.carry(until)
		}
	}
}

// step makes a step, and does what its reply wants: it writes, and closes.
func (l *link) step(call func(node *distnode.Node) (distnode.Reply, error)) (distnode.Reply, error) {
	l.all.Lock()
	reply, err := call(l.all.node)
	l.all.Unlock()
	if err != nil {
		return reply, err
	}
	_, err = l.Write(reply.Say)
	l.all.Lock()
	defer l.all.Unlock()
	l.all.close(reply)
	if reply.Closed != 0 && reply.Other == l.end {
		return reply, fmt.Errorf("closed: %v", reply.Closed)
	}
	return reply, err
}

// read puts what comes behind what is held.
func (l *link) read() error {
	room := make([]byte, 65536)
	count, err := l.Read(room)
	l.held = append(l.held, room[:count]...)
	return err
}

// comeUp drives the handshake until the end is up. What came behind its last frame is held.
func (l *link) comeUp() (distnode.Peer, error) {
	for {
		var challenge [4]byte
		if _, err := rand.Read(challenge[:]); err != nil {
			return distnode.Peer{}, err
		}
		reply, err := l.step(func(node *distnode.Node) (distnode.Reply, error) {
			return node.Received(l.end, l.held, binary.BigEndian.Uint32(challenge[:]))
		})
		if err == distnode.Awaits {
			if err = l.read(); err != nil {
				return distnode.Peer{}, err
			}
			continue
		}
		if err != nil {
			return distnode.Peer{}, err
		}
		l.held = l.held[reply.Taken:]
		if reply.Up {
			l.all.Lock()
			defer l.all.Unlock()
			return l.all.node.PeerOf(l.end)
		}
	}
}

// answerTo returns the answer to a packet, behind its length, if it is that of net_adm:ping: {6, Pid, Unused, net_kernel} (REG_SEND), and
// {'$gen_call', {Pid, Tag}, {is_auth, Node}}. Node is that of Pid and of Tag, which is a reference, or [alias | Reference]. The answer
// is {2, Unused, Pid} (SEND), and {Tag, yes}. Each term has one form under the flags above (ERTS User's Guide, External Term Format).
func answerTo(packet string) []byte {
	const call, isAuth = "w\x00w\x0anet_kernel\x83h\x03w\x09$gen_callh\x02", "h\x02w\x07is_auth"
	if len(packet) < 9 || packet[:8] != "p\x83h\x04a\x06Xw" {
		return nil
	}
	nodeLen := 2 + int(packet[8])
	pidLen := 1 + nodeLen + 12
	from, to := 6+pidLen+len(call)+pidLen, len(packet)-len(isAuth)-nodeLen
	if to < from {
		return nil
	}
	pid, node, tag := packet[6:6+pidLen], packet[7:7+nodeLen], packet[from:to]
	reference := strings.TrimPrefix(tag, "l\x00\x00\x00\x01w\x05alias")
	if len(reference) < 3 || len(reference) != 3+nodeLen+4+4*int(reference[2]) {
		return nil
	}
	isReference := strings.HasPrefix(reference, "Z\x00"+reference[2:3]+node)
	if !isReference || packet != packet[:6]+pid+call+pid+tag+isAuth+node {
		return nil
	}
	answer := "p\x83h\x03a\x02w\x00" + pid + "\x83h\x02" + tag + "w\x03yes"
	return append(binary.BigEndian.AppendUint32(nil, uint32(len(answer))), answer...)
}

// takePackets drops what is whole of the packets that came, answers those of net_adm:ping, and returns whether a tick was among them.
func (l *link) takePackets() (isTick bool, err error) {
	for len(l.held) >= 4 && err == nil {
		size := int(binary.BigEndian.Uint32(l.held))
		if len(l.held) < 4+size {
			break
		}
		if answer := answerTo(string(l.held[4 : 4+size])); answer != nil {
			_, err = l.Write(answer)
		}
		l.held = l.held[4+size:]
		isTick = isTick || size == 0
	}
	return isTick, err
}

// keep keeps the link until it ends or the time is over.
func (l *link) keep(until time.Time) distnode.Why {
	due := time.Now().Add(tick)
	for time.Now().Before(until) {
		now := time.Now()
		if l.SetReadDeadline(now.Add(100*time.Millisecond)) != nil || l.SetWriteDeadline(now.Add(patience)) != nil {
			return distnode.ReadFailed
		}
		err := l.read()
		if err == io.EOF {
			return distnode.Ended
		}
		if err != nil && !errors.Is(err, os.ErrDeadlineExceeded) {
			return distnode.ReadFailed
		}
		isTick, err := l.takePackets()
		// (a tick is answered by one)
		if err == nil && (isTick || !time.Now().Before(due)) {
			due = time.Now().Add(tick)
			_, err = l.step(func(node *distnode.Node) (distnode.Reply, error) { return node.Tick(l.end) })
		}
		if err != nil {
			return distnode.WriteFailed
		}
	}
	return distnode.GaveUp
}

// lose gives the end up, and returns why it is closed: another step may have closed it before.
func (l *link) lose(why distnode.Why) distnode.Why {
	l.all.Lock()
	defer l.all.Unlock()
	l.all.close(distnode.Reply{Closed: why, Other: l.end})
	if _, err := l.all.node.Lost(l.end, why); err == nil {
		return why
	}
	if end, err := l.all.node.End(l.end); err == nil && end.Phase == distnode.PhaseClosed {
		return end.Why
	}
	return why
}

// carry carries the end: its handshake, and then its packets, until it is closed or the time is over.
func (l *link) carry(until time.Time) error {
	up, err := l.comeUp()
	if err != nil {
		l.lose(distnode.GaveUp)
		return err
	}
	fmt.Printf("up %s %016x %d\n", up.Name, up.Common, up.Creation)
	fmt.Printf("down %s %v\n", up.Name, l.lose(l.keep(until)))
	return nil
}

func run(name, peer string, most time.Duration) error {
	until := time.Now().Add(most)
	listener, err := net.Listen("tcp", "127.0.0.1:0")
	if err != nil {
		return err
	}
	alive, _, _ := strings.Cut(name, "@")
	registration, creation, err := register(alive, uint16(listener.Addr().(*net.TCPAddr).Port))
	if err != nil {
		return err
	}
	defer registration.Close()
	secret, err := cookie()
	if err != nil {
		return err
	}
	setup := distnode.Setup{Flags: hiddenFlags, Required: mandatory25, Creation: creation, MostOpenEnds: mostOpen}
	node, err := distnode.NewNode([]byte(name), secret, setup)
	if err != nil {
		return err
	}
	all := &joined{node: node, conns: map[uint32]net.Conn{}}
	defer all.free()
	go all.acceptAll(listener, until)

	l, err := all.dial(peer)
	if err != nil {
		return err
	}
	_, err = l.step(func(node *distnode.Node) (distnode.Reply, error) { return node.Opened(l.end) })
	if err != nil {
		return err
	}
	return l.carry(until)
}

func main() {
	if len(os.Args) != 4 {
		fmt.Fprintln(os.Stderr, "usage: join NAME PEER SECONDS")
		os.Exit(2)
	}
	seconds, err := time.ParseDuration(os.Args[3] + "s")
	if err == nil {
		err = run(os.Args[1], os.Args[2], seconds)
	}
	if err != nil {
		fmt.Fprintln(os.Stderr, "join:", err)
		os.Exit(1)
	}
}
