// SPDX-License-Identifier: Apache-2.0

package distnode

// #include <stdlib.h>
// #include <distnode.h>
import "C"

import "unsafe"

// The kinds of node: others list a hidden one in nodes(hidden) alone.
const (
	Normal = 0x4d
	Hidden = 0x48
)

// The longest message but one, and the longest answer of a registry but a list of names: a longer one takes a second call.
const (
	messageRoom = 1024
	answerRoom  = 65536
)

// Info is what the port mapper knows of a node.
type Info struct {
	Port            uint16
	Highest, Lowest uint16 // the versions of the handshake that it knows
	NodeType        uint8  // Normal or Hidden
}

// AliveRequest is the frame by which a node registers under the part of its name before the @.
func AliveRequest(info Info, alive []byte) ([]byte, error) {
	given := C.dn_info{
		port: C.uint16_t(info.Port), highest: C.uint16_t(info.Highest), lowest: C.uint16_t(info.Lowest), node_type: C.uint8_t(info.NodeType),
	}
	name, nameLength := bytesOf(alive)
	return copied(messageRoom, func(room *C.uint8_t, most C.size_t, length *C.size_t) C.uint32_t {
		return C.dn_epmd_alive_request(&given, name, nameLength, room, most, length)
	})
}

// AliveAnswer is the creation in the answer to a registration, and whether it was accepted.
func AliveAnswer(data []byte) (creation uint32, accepted bool, err error) {
	came, length := bytesOf(data)
	var result, number C.uint32_t
	err = done(C.dn_epmd_alive_answer(came, length, &result, &number))
	return uint32(number), err == nil && result == 0, err
}

// PortRequest is the frame that asks for a node.
func PortRequest(alive []byte) ([]byte, error) {
	name, nameLength := bytesOf(alive)
	return copied(messageRoom, func(room *C.uint8_t, most C.size_t, length *C.size_t) C.uint32_t {
		return C.dn_epmd_port_request(name, nameLength, room, most, length)
	})
}

// PortAnswer is what the port mapper says of a node, and whether it knows one.
func PortAnswer(data []byte) (info Info, known bool, err error) {
	came, length := bytesOf(data)
	var result C.uint32_t
	var it C.dn_info
	err = done(C.dn_epmd_port_answer(came, length, &result, &it))
	return Info{uint16(it.port), uint16(it.highest), uint16(it.lowest), uint8(it.node_type)}, err == nil && result == 0, err
}

// NamesRequest is the frame that asks for all names.
func NamesRequest() ([]byte, error) {
	return copied(messageRoom, func(room *C.uint8_t, most C.size_t, length *C.size_t) C.uint32_t {
		return C.dn_epmd_names_request(room, most, length)
	})
}

// Registry is what a port mapper knows and answers. It stays on one thread: its goroutine calls runtime.LockOSThread before NewRegistry.
type Registry struct {
	registry *C.dn_registry
}

// Served is what became of a request.
type Served struct {
	Say        []byte // what is to be written on its connection
	Taken      int    // how many bytes were taken
	Registered bool   // the connection is to be kept, and its end reported by Closed; else it is to be closed once Say was written
}

// NewRegistry makes a registry without nodes, of the port mapper at this port. The first node that is accepted gets the creation first.
func NewRegistry(port uint16, first uint32) (*Registry, error) {
	registry := (*C.dn_registry)(C.calloc(1, C.sizeof_dn_registry))
	if err := done(C.dn_registry_new(registry, C.uint16_t(port), C.uint32_t(first))); err != nil {
		C.free(unsafe.Pointer(registry))
		return nil, err
	}
	return &Registry{registry}, nil
}

// Free lets the registry go. A later call is refused as NotANode, and so is this one.
func (r *Registry) Free() error {
	if r.registry == nil {
		return NotANode
	}
	err := done(C.dn_registry_free(r.registry))
	C.free(unsafe.Pointer(r.registry))
	r.registry = nil
	return err
}

// Asked answers the request at the front of what came on a connection, whose number is used for no other; the error is Awaits where it has
// not come whole.
func (r *Registry) Asked(connection uint64, data []byte) (Served, error) {
	if r.registry == nil {
		return Served{}, NotANode
	}
	came, length := bytesOf(data)
	var it C.dn_served
	if err := done(C.dn_registry_asked(r.registry, C.uint64_t(connection), came, length, &it)); err != nil {
		return Served{}, err
	}
	say, err := copied(answerRoom, func(room *C.uint8_t, most C.size_t, length *C.size_t) C.uint32_t {
		return C.dn_registry_say(r.registry, room, most, length)
	})
	return Served{say, int(it.taken), it.registered != 0}, err
}

// Closed reports that a connection is closed: what was registered on it is dropped.
func (r *Registry) Closed(connection uint64) error {
	if r.registry == nil {
		return NotANode
	}
	return done(C.dn_registry_closed(r.registry, C.uint64_t(connection)))
}
