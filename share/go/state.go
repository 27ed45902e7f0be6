// SPDX-License-Identifier: Apache-2.0

package distnode

// #include <distnode.h>
import "C"

// Status is a status of the handshake, as one side says it and the other hears it.
type Status uint32

// The statuses, as the header has them.
const (
	StatusNone           Status = C.DN_STATUS_NONE            // there was none
	StatusOK             Status = C.DN_STATUS_OK              // the handshake goes on
	StatusOKSimultaneous Status = C.DN_STATUS_OK_SIMULTANEOUS // it goes on, and the attempt of who says so is given up
	StatusNok            Status = C.DN_STATUS_NOK             // it does not, since the attempt of the side that says so goes on
	StatusNotAllowed     Status = C.DN_STATUS_NOT_ALLOWED     // it does not, since the name or its flags are refused
	StatusAlive          Status = C.DN_STATUS_ALIVE           // there is a connection already, and is it to be given up?
	StatusTrue           Status = C.DN_STATUS_TRUE            // it is, and the handshake goes on
	StatusFalse          Status = C.DN_STATUS_FALSE           // it is not
)

// Phase is how an end stands: what it awaits of the other side, where it is open and not up.
type Phase uint32

// The phases, as the header has them.
const (
	PhaseNone          Phase = C.DN_PHASE_NONE // the number was never given out
	PhaseClosed        Phase = C.DN_PHASE_CLOSED
	PhaseConnection    Phase = C.DN_PHASE_CONNECTION     // dialled: its connection, which is not there yet
	PhaseName          Phase = C.DN_PHASE_NAME           // accepted: the peer's name, so that the peer is not known yet
	PhaseStatus        Phase = C.DN_PHASE_STATUS         // dialled: a status, to the name that was said
	PhaseChallenge     Phase = C.DN_PHASE_CHALLENGE      // dialled: a challenge
	PhaseAck           Phase = C.DN_PHASE_ACK            // dialled: an acknowledgement of the reply that was said
	PhaseTrueOrFalse   Phase = C.DN_PHASE_TRUE_OR_FALSE  // accepted: true or false, to the status alive that was said
	PhaseComplement    Phase = C.DN_PHASE_COMPLEMENT     // accepted: a complement to the old form of name
	PhaseReply         Phase = C.DN_PHASE_REPLY          // accepted: a reply to the challenge that was said
	PhaseDoomedDialing Phase = C.DN_PHASE_DOOMED_DIALING // dialled and superseded: its connection, with which it is closed
	PhaseDoomed        Phase = C.DN_PHASE_DOOMED         // dialled and superseded: a status, with which it is closed
	PhaseUp            Phase = C.DN_PHASE_UP
)

// State is which ends hold a peer. One that was superseded, and is closed with the next that it hears, holds nothing.
type State uint32

// The states, as the header has them.
const (
	StateIdle       State = C.DN_STATE_IDLE       // none
	StateOut        State = C.DN_STATE_OUT        // one that was dialled, and is not up
	StateIn         State = C.DN_STATE_IN         // one that was accepted and took the peer's name, and is not up
	StateUp         State = C.DN_STATE_UP         // one that is up
	StateChallenged State = C.DN_STATE_CHALLENGED // one that is up, and one that was accepted, on which the peer came anew
)

// Entry is the ends that hold a peer.
type Entry struct {
	State   State
	Up      uint32 // the end that is up, in StateUp and StateChallenged
	Pending uint32 // the end that is not, in StateOut, StateIn and StateChallenged
}

// End is an end.
type End struct {
	Phase Phase
	Why   Why    // in PhaseClosed: the cause, Ended where it was forgotten
	Peer  []byte // its peer's name, also before it is up; else empty
}

// Status returns the status that the newest step sent, and the one that it received: so it is known why a peer said no.
func (n *Node) Status() (said, heard Status, err error) {
	if n.node == nil {
		return StatusNone, StatusNone, NotANode
	}
	var isSaid, isHeard C.uint32_t
	err = done(C.dn_node_status(n.node, &isSaid, &isHeard))
	return Status(isSaid), Status(isHeard), err
}

// Entry returns the ends that hold a peer.
func (n *Node) Entry(peer []byte) (Entry, error) {
	if n.node == nil {
		return Entry{}, NotANode
	}
	name, length := bytesOf(peer)
	var it C.dn_entry
	err := done(C.dn_node_entry(n.node, name, length, &it))
	return Entry{State(it.state), uint32(it.up), uint32(it.pending)}, err
}

// End returns how an end stands, and who its peer is, also before it is up.
func (n *Node) End(end uint32) (End, error) {
	if n.node == nil {
		return End{}, NotANode
	}
	var it C.dn_end
	var room [longestName]byte
	if err := done(C.dn_node_end(n.node, C.uint32_t(end), &it, (*C.uint8_t)(&room[0]), longestName)); err != nil {
		return End{}, err
	}
	return End{Phase(it.phase), Why(it.why), append([]byte(nil), room[:it.peer]...)}, nil
}

// Oldest returns the end that has been open and not up for the longest, the next to make room; the error is NoSuch where each
// open end is up.
func (n *Node) Oldest() (uint32, error) {
	if n.node == nil {
		return 0, NotANode
	}
	var end C.uint32_t
	err := done(C.dn_node_oldest(n.node, &end))
	return uint32(end), err
}
