// SPDX-License-Identifier: Apache-2.0

// Package distnode is the handshake of Erlang's distribution protocol over libdistnode, whose steps are proved to be those of its
// definition: a node, the registry of a port mapper, and the port mapper's messages.
//
// There are no sockets, no clock and no random numbers in here: the caller owns them, reports what happened, and does what the reply says.
// cmd/join is a whole program; docs/C_LIBRARY.md of the sources has the order of calls.
//
// Left out: dn_node_guarded_body, for hosts that show their peers to others, and dn_node_peer_at, since Peers goes through all.
package distnode

// #cgo pkg-config: distnode
// #include <stdlib.h>
// #include <distnode.h>
import "C"

import "unsafe"

// longestName is how many bytes a name has at most.
const longestName = 255

// bodyRoom is more than the longest frame that a node says.
const bodyRoom = 1024

// Mandatory25 has the flags that DFLAG_MANDATORY_25_DIGEST means, as OTP 25 and later read it.
const Mandatory25 = C.DN_MANDATORY_25

// Setup is what a node is set up with, apart from its name and its cookie. Fields that are 0 have their usual values.
type Setup struct {
	Flags        uint64 // that it announces; those of the handshake's version are added and removed as they must be
	Required     uint64 // that it requires of a peer, in addition to those of the version
	Creation     uint32 // the number of this incarnation, as the port mapper answered it
	Version      uint32 // the highest version of the handshake that it knows: 5 or 6; 0 means 6
	Limited      bool   // only peers that Allow names may connect
	MostEnds     uint32 // that it ever gives out; 0 means 4,294,967,295
	MostSteps    uint64 // that it makes, losses not counted; 0 means 2^64 - 1
	MostEntries  uint32 // peers with which it has or makes a connection at one time; 0 means 65,536
	MostOpenEnds uint32 // ends that are open at one time; 0 means 65,536. A newcomer finds room as long as one is not up
	Mandatory25  uint64 // the flags that DFLAG_MANDATORY_25_DIGEST of a peer means: Mandatory25, or 0 for none
}

// Reply is what a step did; of Ready and ReadyBody, what it would do.
type Reply struct {
	End         uint32 // the event's end, or the one that was given out
	Say         []byte // what is to be written on its connection
	Taken       int    // how many of the bytes that were given were taken
	Closed      Why    // not 0: an end was closed, this one or another, and its connection is to be closed once Say was written
	Other       uint32 // which end was closed
	Up          bool   // this end came up: what follows on its connection is the caller's
	Common      uint64 // where it came up: the flags that both announced
	Creation    uint32 // where it came up: the peer's creation
	HasCreation bool   // a peer of version 5 has none
}

// Peer is a peer that is up.
type Peer struct {
	Name        []byte
	End         uint32
	Common      uint64 // the flags that both announced
	Creation    uint32
	HasCreation bool // a peer of version 5 has none
}

// Node is a node, which one goroutine uses at a time: others under a lock. Free lets it go.
type Node struct {
	node *C.dn_node // in C's memory, since it stays where it is
}

// NewNode makes a node of this name, with this cookie for each peer that has none of its own. The text of a cookie is that of its file.
func NewNode(name, cookie []byte, setup Setup) (*Node, error) {
	given := C.dn_setup{
		flags: C.uint64_t(setup.Flags), required: C.uint64_t(setup.Required), creation: C.uint32_t(setup.Creation),
		version: C.uint32_t(setup.Version), limited: number(setup.Limited), most_ends: C.uint32_t(setup.MostEnds),
		most_steps: C.uint64_t(setup.MostSteps), most_entries: C.uint32_t(setup.MostEntries),
		most_open_ends: C.uint32_t(setup.MostOpenEnds), mandatory_25: C.uint64_t(setup.Mandatory25),
	}
	node := (*C.dn_node)(C.calloc(1, C.sizeof_dn_node))
	text, length := bytesOf(name)
	secret, secretLength := bytesOf(cookie)
	if err := done(C.dn_node_new(node, text, length, secret, secretLength, &given)); err != nil {
		C.free(unsafe.Pointer(node))
		return nil, err
	}
	return &Node{node}, nil
}

// Free lets the node go. A later call is refused as NotANode, and so is this one.
func (n *Node) Free() error {
	if n.node == nil {
		return NotANode
	}
	err := done(C.dn_node_free(n.node))
	C.free(unsafe.Pointer(n.node))
	n.node = nil
	return err
}

// Renew begins anew, with the setup, the cookies and the peers that may connect: ends get their numbers from 0 on again. It is
// refused as OpenEnds while an end is open.
func (n *Node) Renew() error {
	if n.node == nil {
		return NotANode
	}
	return done(C.dn_node_renew(n.node))
}

// Allow lets this peer connect, and from the first call on only peers that were named so. At any time; a peer that is connected
// stays so.
func (n *Node) Allow(peer []byte) error {
	if n.node == nil {
		return NotANode
	}
	name, length := bytesOf(peer)
	return done(C.dn_node_allow(n.node, name, length))
}

// Disallow lets this peer connect no more, where the peers that may are named. One that is connected stays so.
func (n *Node) Disallow(peer []byte) error {
	if n.node == nil {
		return NotANode
	}
	name, length := bytesOf(peer)
	return done(C.dn_node_disallow(n.node, name, length))
}

// SetCookie keeps a cookie for this peer alone. It is refused as PeerInUse while the peer is connected, where it is another cookie.
func (n *Node) SetCookie(peer, cookie []byte) error {
	if n.node == nil {
		return NotANode
	}
	name, length := bytesOf(peer)
	secret, secretLength := bytesOf(cookie)
	return done(C.dn_node_cookie(n.node, name, length, secret, secretLength))
}

// RemoveCookie takes away the cookie that this peer has of its own. It is refused as PeerInUse while the peer is connected.
func (n *Node) RemoveCookie(peer []byte) error {
	if n.node == nil {
		return NotANode
	}
	name, length := bytesOf(peer)
	return done(C.dn_node_no_cookie(n.node, name, length))
}

// SetUsualCookie changes the cookie of each peer that has none of its own. It is refused as PeerInUse while one of those is
// connected.
func (n *Node) SetUsualCookie(cookie []byte) error {
	if n.node == nil {
		return NotANode
	}
	secret, secretLength := bytesOf(cookie)
	return done(C.dn_node_usual_cookie(n.node, secret, secretLength))
}

// replied makes a call and reads its reply but for what it says, and how many bytes those are. An end that made room is reported
// with an error too.
func (n *Node) replied(call func(reply *C.dn_reply) C.uint32_t) (Reply, int, error) {
	if n.node == nil {
		return Reply{}, 0, NotANode
	}
	var it C.dn_reply
	if err := done(call(&it)); err != nil {
		return Reply{Closed: Why(it.closed), Other: uint32(it.closed_id)}, 0, err
	}
	return Reply{
		End: uint32(it.id), Taken: int(it.taken), Closed: Why(it.closed), Other: uint32(it.closed_id), Up: it.up != 0,
		Common: uint64(it.common), Creation: uint32(it.creation), HasCreation: it.has_creation != 0,
	}, int(it.say), nil
}

// step makes a call and reads its reply.
func (n *Node) step(call func(reply *C.dn_reply) C.uint32_t) (Reply, error) {
	reply, say, err := n.replied(call)
	if err != nil || say == 0 {
		return reply, err
	}
	reply.Say, err = copied(say, func(room *C.uint8_t, most C.size_t, length *C.size_t) C.uint32_t {
		return C.dn_node_say(n.node, room, most, length)
	})
	return reply, err
}

// Dial reports that the node is to connect to this peer: the reply has a new end. Closed and Other name an end that was given up
// to make room, with an error too. isNew opens by the name N of version 6, else by n.
func (n *Node) Dial(peer []byte, isNew bool) (Reply, error) {
	name, length := bytesOf(peer)
	return n.step(func(reply *C.dn_reply) C.uint32_t { return C.dn_node_dial(n.node, name, length, number(isNew), reply) })
}

// Opened reports that the connection of a dialled end is there.
func (n *Node) Opened(end uint32) (Reply, error) {
	return n.step(func(reply *C.dn_reply) C.uint32_t { return C.dn_node_opened(n.node, C.uint32_t(end), reply) })
}

// Incoming reports that a connection was accepted: the reply has a new end. Closed and Other name an end that was given up to
// make room, with an error too.
func (n *Node) Incoming() (Reply, error) {
	return n.step(func(reply *C.dn_reply) C.uint32_t { return C.dn_node_incoming(n.node, reply) })
}

// Received takes the frame at the front of what came, which Taken counts; the error is Awaits where it has not come whole. The challenge
// is a random number, drawn anew.
func (n *Node) Received(end uint32, data []byte, challenge uint32) (Reply, error) {
	came, length := bytesOf(data)
	return n.step(func(reply *C.dn_reply) C.uint32_t {
		return C.dn_node_received(n.node, C.uint32_t(end), came, length, C.uint32_t(challenge), reply)
	})
}

// ReceivedBody takes one frame without its length, for a caller whose sockets take lengths off. Bodies has what it says.
func (n *Node) ReceivedBody(end uint32, body []byte, challenge uint32) (Reply, error) {
	came, length := bytesOf(body)
	return n.step(func(reply *C.dn_reply) C.uint32_t {
		return C.dn_node_body(n.node, C.uint32_t(end), came, length, C.uint32_t(challenge), reply)
	})
}

// Ready is what Received would answer to these bytes and this challenge; nothing is done, and Say is empty. Where Up is true,
// the caller looks by End which peer that is, and lets it in by Received with the same bytes and the same challenge, or refuses
// it by Lost with GaveUp.
func (n *Node) Ready(end uint32, data []byte, challenge uint32) (Reply, error) {
	came, length := bytesOf(data)
	reply, _, err := n.replied(func(reply *C.dn_reply) C.uint32_t {
		return C.dn_node_ready(n.node, C.uint32_t(end), came, length, C.uint32_t(challenge), reply)
	})
	return reply, err
}

// ReadyBody is what ReceivedBody would answer, as Ready is what Received would.
func (n *Node) ReadyBody(end uint32, body []byte, challenge uint32) (Reply, error) {
	came, length := bytesOf(body)
	reply, _, err := n.replied(func(reply *C.dn_reply) C.uint32_t {
		return C.dn_node_ready_body(n.node, C.uint32_t(end), came, length, C.uint32_t(challenge), reply)
	})
	return reply, err
}

// Lost reports that the connection of an end is lost or given up.
func (n *Node) Lost(end uint32, why Why) (Reply, error) {
	return n.step(func(reply *C.dn_reply) C.uint32_t {
		return C.dn_node_lost(n.node, C.uint32_t(end), C.uint32_t(why), reply)
	})
}

// Tick reports that a tick is due on an end that is up.
func (n *Node) Tick(end uint32) (Reply, error) {
	return n.step(func(reply *C.dn_reply) C.uint32_t { return C.dn_node_tick(n.node, C.uint32_t(end), reply) })
}

// Forget forgets why the ends below this number were closed, and gives back the memory that was kept of them. Open ends stay as
// they are. A node that runs for long calls it now and then, as with the number of its newest end.
func (n *Node) Forget(below uint32) error {
	if n.node == nil {
		return NotANode
	}
	return done(C.dn_node_forget(n.node, C.uint32_t(below)))
}

// Bodies returns the frames that the newest step says, each without its length, and each to be written by itself. A tick is none
// of them: there an empty packet is to be written.
func (n *Node) Bodies() ([][]byte, error) {
	if n.node == nil {
		return nil, NotANode
	}
	var bodies [][]byte
	for {
		body, err := copied(bodyRoom, func(room *C.uint8_t, most C.size_t, length *C.size_t) C.uint32_t {
			return C.dn_node_say_body(n.node, C.size_t(len(bodies)), room, most, length)
		})
		if err == NoSuch {
			return bodies, nil
		}
		if err != nil {
			return nil, err
		}
		bodies = append(bodies, body)
	}
}

func (n *Node) peer(call func(peer *C.dn_peer, room *C.uint8_t) C.uint32_t) (Peer, error) {
	if n.node == nil {
		return Peer{}, NotANode
	}
	var it C.dn_peer
	var room [longestName]byte
	if err := done(call(&it, (*C.uint8_t)(&room[0]))); err != nil {
		return Peer{}, err
	}
	name := append([]byte(nil), room[:it.name]...)
	return Peer{name, uint32(it.id), uint64(it.common), uint32(it.creation), it.has_creation != 0}, nil
}

// PeerOf returns the peer that is up on an end; the error is NoSuch where there is none.
func (n *Node) PeerOf(end uint32) (Peer, error) {
	return n.peer(func(peer *C.dn_peer, room *C.uint8_t) C.uint32_t {
		return C.dn_node_peer_of(n.node, C.uint32_t(end), peer, room, longestName)
	})
}

// Peers returns the peers that are up, in the order of their names.
func (n *Node) Peers() ([]Peer, error) {
	var peers []Peer
	var last []byte
	for {
		name, length := bytesOf(last)
		peer, err := n.peer(func(peer *C.dn_peer, room *C.uint8_t) C.uint32_t {
			return C.dn_node_next_peer(n.node, name, length, peer, room, longestName)
		})
		if err == NoSuch {
			return peers, nil
		}
		if err != nil {
			return nil, err
		}
		peers = append(peers, peer)
		last = peer.Name
	}
}

// CookieDigest is the digest of a challenge under a cookie.
func CookieDigest(cookie []byte, challenge uint32) (digest [16]byte, err error) {
	secret, length := bytesOf(cookie)
	err = done(C.dn_cookie_digest(secret, length, C.uint32_t(challenge), (*C.uint8_t)(&digest[0])))
	return digest, err
}
