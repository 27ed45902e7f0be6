// SPDX-License-Identifier: Apache-2.0

package distnode

// #include <distnode.h>
import "C"

// Code is a call's answer that is no success: its number in the header, which has its meaning. It is an error.
type Code uint32

// The codes that a program distinguishes.
const (
	NotANode   Code = C.DN_NOT_A_NODE  // it was freed
	NoMemory   Code = C.DN_NO_MEMORY   // the same call does its work once there is some
	Awaits     Code = C.DN_AWAITS      // the bytes begin with no whole frame: call again with these and those that follow
	NoSuch     Code = C.DN_NO_SUCH     // a cause, a place or a version names nothing
	TooLong    Code = C.DN_TOO_LONG    // a body has more than 65,535 bytes, and no frame can have it
	PeerInUse  Code = C.DN_PEER_IN_USE // a peer that is up would get another cookie
	NoSuchEnd  Code = C.DN_NO_SUCH_END // the number was never given out
	Gone       Code = C.DN_GONE        // the end is closed
	WrongPhase Code = C.DN_WRONG_PHASE // the end is open, and takes no such event now
	Busy       Code = C.DN_BUSY        // a dial to a peer that has an end
	Spent      Code = C.DN_SPENT       // the node has made its steps, or given out its ends
	Full       Code = C.DN_FULL        // the ends that may be open are up, or no entry or no cookie is left
	OpenEnds   Code = C.DN_OPEN_ENDS   // an end is open, and the node does not begin anew
	ShownEnd   Code = C.DN_SHOWN_END   // an end that is up would be closed, and has to be lost first
	HalfFlags  Code = C.DN_HALF_FLAGS  // a setup announces DFLAG_MANDATORY_25_DIGEST without the flags that it means
)

// Error is the code's word, as NoMemory.
func (c Code) Error() string {
	return word(func(room *C.uint8_t, most C.size_t, length *C.size_t) C.uint32_t {
		return C.dn_code_name(C.uint32_t(c), room, most, length)
	})
}

// Why is why an end is closed. The caller reports a loss with one of the first five.
type Why uint32

// The causes, as the header has them.
const (
	Ended         Why = C.DN_WHY_ENDED // the connection ended
	ReadFailed    Why = C.DN_WHY_READ_FAILED
	WriteFailed   Why = C.DN_WHY_WRITE_FAILED
	GaveUp        Why = C.DN_WHY_GAVE_UP        // the caller waited no longer
	DialFailed    Why = C.DN_WHY_DIAL_FAILED    // the connection could not be made
	Malformed     Why = C.DN_WHY_MALFORMED      // what came is no message
	Unexpected    Why = C.DN_WHY_UNEXPECTED     // what came is a message of another phase
	WrongName     Why = C.DN_WHY_WRONG_NAME     // the peer has another name than the one that was dialled
	WrongFlags    Why = C.DN_WHY_WRONG_FLAGS    // the peer lacks a required flag
	WrongDigest   Why = C.DN_WHY_WRONG_DIGEST   // the peer has another cookie
	StatusRefused Why = C.DN_WHY_STATUS_REFUSED // the peer said no
	Refused       Why = C.DN_WHY_REFUSED        // the name failed a check, and this node said no
	Crossed       Why = C.DN_WHY_CROSSED        // both dialled, and the other connection stays
	Replaced      Why = C.DN_WHY_REPLACED       // the peer has connected anew
	OutOfMemory   Why = C.DN_WHY_NO_MEMORY
)

// String is the cause's word, as WrongDigest.
func (w Why) String() string {
	return word(func(room *C.uint8_t, most C.size_t, length *C.size_t) C.uint32_t {
		return C.dn_why_name(C.uint32_t(w), room, most, length)
	})
}

// done is nil where a call did its work.
func done(code C.uint32_t) error {
	if code == C.DN_OK {
		return nil
	}
	return Code(code)
}

// word is a word of the library: 16 bytes of room are enough for any.
func word(call func(room *C.uint8_t, most C.size_t, length *C.size_t) C.uint32_t) string {
	var room [16]byte
	var length C.size_t
	if call((*C.uint8_t)(&room[0]), 16, &length) != C.DN_OK {
		return "Unknown"
	}
	return string(room[:length])
}

// copied is what a call copies into a room: once more with the length that it returns, where the first room is too short.
func copied(most int, call func(room *C.uint8_t, most C.size_t, length *C.size_t) C.uint32_t) ([]byte, error) {
	room := make([]byte, most+1)
	var length C.size_t
	code := call((*C.uint8_t)(&room[0]), C.size_t(most), &length)
	if code == C.DN_NO_ROOM {
		room = make([]byte, length+1)
		code = call((*C.uint8_t)(&room[0]), length, &length)
	}
	if err := done(code); err != nil {
		return nil, err
	}
	return room[:length], nil
}

// bytesOf is a pointer, never null, to a copy of the bytes, and their length: no two pointers of a call lead to the same bytes.
func bytesOf(data []byte) (*C.uint8_t, C.size_t) {
	room := append(make([]byte, 0, len(data)+1), data...)
	return (*C.uint8_t)(&room[:1][0]), C.size_t(len(data))
}

func number(is bool) C.uint32_t {
	if is {
		return 1
	}
	return 0
}
