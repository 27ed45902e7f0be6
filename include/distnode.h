/* SPDX-License-Identifier: Apache-2.0 */
/* distnode.h: the handshake of Erlang's distribution protocol, for a caller that owns its sockets, its clock and its
 * random numbers. docs/C_LIBRARY.md has the order of calls, and examples/c/join.c a whole program.
 *
 * There is no input or output in this library, no thread, no lock, no callback and no global state. No call aborts, blocks,
 * prints, draws a number or asks the time. What a call does is proved to be the step of the node's definition. Nothing
 * checks what the caller owes: the three demands.
 *
 * THE THREE DEMANDS
 *
 * 1. A dn_node is all zero (DN_NODE_INIT) before dn_node_new. From then on the caller neither writes nor copies it, and gives
 *    it to one call at a time. It may be used by one thread at a time, and may move to another: the caller puts their calls in
 *    order, by a lock, or by a thread's start or end. Different nodes share nothing, and need no order.
 * 2. Pointers must not be null, even if the length is 0. Each must be aligned and point to at least that many elements, readable,
 *    and writable unless it is const. No two pointers of a call may point to the same bytes.
 * 3. malloc, realloc and free come from one allocator and align as C asks. No call comes from a signal handler, or from the
 *    forked child of a process with threads.
 *
 * Bytes are copied, both ways: those that were given to a call are the caller's again when it returns. Nothing that a call
 * hands out is to be freed: only a node and a registry are, by dn_node_free and dn_registry_free.
 *
 * Every function returns a dn_code. Its errors are listed in the order in which they are checked: the first that applies is returned.
 * With a code other than DN_OK the node, and what the pointers point to, are as they were, except for what DN_NO_ROOM and DN_SHOWN_END
 * report, and for the end that dn_node_dial and dn_node_incoming evict, which they report with any code. After DN_NO_MEMORY the same
 * call succeeds once there is memory. */
#ifndef DISTNODE_H
#define DISTNODE_H

#include <stddef.h>
#include <stdint.h>

#define DN_VERSION_MAJOR 0
#define DN_VERSION_MINOR 2
#define DN_VERSION_PATCH 0
#define DN_VERSION "0.2.0"

#ifdef __cplusplus
extern "C" {
#endif

/* A node, in the caller's memory. Its fields are the library's. */
typedef struct dn_node {
    void *guest;
    uint64_t mark;
} dn_node;

#define DN_NODE_INIT {0, 0}

/* What a call answers. */
typedef enum dn_code {
    DN_OK = 0,
    DN_NOT_A_NODE = 1,      /* the struct holds no node, or no registry: it is zero, or was freed */
    DN_IN_USE = 2,          /* the struct holds one already */
    DN_NO_MEMORY = 3,
    DN_NO_ROOM = 4,         /* the caller's room is too short; the length that it needs is reported */
    DN_AWAITS = 5,          /* the bytes begin with no whole frame: call again with these and those that follow */
    DN_NO_SUCH = 6,         /* a cause, a place or a version names nothing */
    DN_TOO_LONG = 8,        /* a body has more than 65,535 bytes, and no frame can have it */
    DN_PEER_IN_USE = 9,     /* a peer that is up would get another cookie */
    DN_NO_SUCH_END = 10,    /* the number was never given out */
    DN_GONE = 11,           /* the end is closed */
    DN_WRONG_PHASE = 12,    /* the end is open, and takes no such event now */
    DN_BUSY = 13,           /* a dial to a peer that has an end */
    DN_SPENT = 14,          /* the node has made most_steps steps, or given out most_ends ends; a loss is still taken */
    DN_FULL = 15,           /* most_open_ends ends are up, most_entries peers have an entry, or 1,024 names have cookies */
    DN_OPEN_ENDS = 16,      /* an end is open, and the node does not begin anew */
    DN_SHOWN_END = 17,      /* dn_node_guarded_body: an end that is up would be closed, and has to be lost first */
    DN_NAME_TOO_SHORT = 20, /* a name has fewer than 3 bytes */
    DN_NAME_TOO_LONG = 21,  /* a name has more than 255 bytes */
    DN_NAME_BAD_BYTE = 22,  /* a name has a byte that is not from 0x21 to 0x7E */
    DN_NAME_BAD_AT = 23,    /* a name has not exactly one @, or nothing before or after it */
    DN_COOKIE_EMPTY = 30,   /* the text does not begin with a cookie */
    DN_COOKIE_BAD_BYTE = 31, /* the cookie is followed by something other than line ends and spaces */
    DN_COOKIE_TOO_LONG = 32, /* the cookie has more than 255 bytes, or its text more than 4,096 */
    DN_EPMD_MALFORMED = 40, /* the bytes are no such message, or it has no spelling, being too long */
    DN_EPMD_SHORT = 41,     /* the message ends inside a field: read on to the end of the connection */
    DN_EPMD_TRAILING = 42,  /* bytes follow the message */
    DN_HALF_FLAGS = 50      /* a setup announces DFLAG_MANDATORY_25_DIGEST without the flags that it means */
} dn_code;

/* Why an end is closed. The caller tells a loss with one of the first five or with DN_WHY_NO_MEMORY. */
typedef enum dn_why {
    DN_WHY_ENDED = 1,           /* the connection ended */
    DN_WHY_READ_FAILED = 2,
    DN_WHY_WRITE_FAILED = 3,
    DN_WHY_GAVE_UP = 4,         /* the caller waited no longer */
    DN_WHY_DIAL_FAILED = 5,     /* the connection could not be made */
    DN_WHY_MALFORMED = 6,       /* what came is no message */
    DN_WHY_UNEXPECTED = 7,      /* what came is a message of another phase */
    DN_WHY_WRONG_NAME = 8,      /* the peer has another name than the one that was dialled */
    DN_WHY_WRONG_FLAGS = 9,     /* the peer lacks a required flag */
    DN_WHY_WRONG_DIGEST = 10,   /* the peer has another cookie */
    DN_WHY_STATUS_REFUSED = 11, /* the peer said no */
    DN_WHY_REFUSED = 12,        /* the name failed a check, and this node said no */
    DN_WHY_CROSSED = 13,        /* both dialled, and the other connection stays */
    DN_WHY_REPLACED = 14,       /* the peer has connected anew */
    DN_WHY_NO_MEMORY = 15
} dn_why;

/* A status of the handshake, as one side says it and the other hears it. */
typedef enum dn_status {
    DN_STATUS_NONE = 0,            /* there was none */
    DN_STATUS_OK = 1,              /* ok: the handshake goes on */
    DN_STATUS_OK_SIMULTANEOUS = 2, /* ok_simultaneous: it goes on, and the attempt of the side that says so is given up */
    DN_STATUS_NOK = 3,             /* nok: it does not, since the attempt of the side that says so goes on */
    DN_STATUS_NOT_ALLOWED = 4,     /* not_allowed: it does not, since the name or its flags are refused */
    DN_STATUS_ALIVE = 5,           /* alive: there is a connection already, and is it to be given up? */
    DN_STATUS_TRUE = 6,            /* true: it is, and the handshake goes on */
    DN_STATUS_FALSE = 7            /* false: it is not */
} dn_status;

/* The state of an end: what it awaits of the other side, if it is open and not up. */
typedef enum dn_phase {
    DN_PHASE_NONE = 0,            /* the number was never given out */
    DN_PHASE_CLOSED = 1,
    DN_PHASE_CONNECTION = 2,      /* dialled: its connection, which is not there yet */
    DN_PHASE_NAME = 3,            /* accepted: the peer's name, so that the peer is not known yet */
    DN_PHASE_STATUS = 4,          /* dialled: a status, to the name that was said */
    DN_PHASE_CHALLENGE = 5,       /* dialled: a challenge */
    DN_PHASE_ACK = 6,             /* dialled: an acknowledgement of the reply that was said */
    DN_PHASE_TRUE_OR_FALSE = 7,   /* accepted: true or false, to the status alive that was said */
    DN_PHASE_COMPLEMENT = 8,      /* accepted: a complement to the old form of name */
    DN_PHASE_REPLY = 9,           /* accepted: a reply to the challenge that was said */
    DN_PHASE_DOOMED_DIALING = 10, /* dialled and superseded: its connection, with which it is closed */
    DN_PHASE_DOOMED = 11,         /* dialled and superseded: a status, with which it is closed */
    DN_PHASE_UP = 12
} dn_phase;

/* Which ends hold a peer. One that was superseded, and is closed with the next that it hears, holds nothing. */
typedef enum dn_state {
    DN_STATE_IDLE = 0,      /* none */
    DN_STATE_OUT = 1,       /* one that was dialled, and is not up */
    DN_STATE_IN = 2,        /* one that was accepted and took the peer's name, and is not up */
    DN_STATE_UP = 3,        /* one that is up */
    DN_STATE_CHALLENGED = 4 /* one that is up, and one that was accepted, on which the peer came anew and which is not up */
} dn_state;

/* What a node is set up with, apart from its name and its cookie. Fields that are 0 have their usual values. */
typedef struct dn_setup {
    uint64_t flags;          /* that it announces; those of the handshake's version are added and removed as they must be */
    uint64_t required;       /* that it requires of a peer, in addition to those of the version */
    uint32_t creation;       /* the number of this incarnation, as the port mapper answered it */
    uint32_t version;        /* the highest version of the handshake that it knows: 5 or 6; 0 means 6 */
    uint32_t limited;        /* not 0: only peers that dn_node_allow lets in may connect */
    uint32_t most_ends;      /* that it ever gives out, closed ones counted too; 0 means 4,294,967,295 */
    uint64_t most_steps;     /* that it makes, losses not counted; 0 means 2^64 - 1 */
    uint32_t most_entries;   /* peers with which it has or makes a connection at one time; 0 means 65,536 */
    uint32_t most_open_ends; /* ends that are open at one time; 0 means 65,536. If most_entries is no less, a newcomer
                                finds room as long as some open end is not up */
    uint64_t mandatory_25;   /* the flags that DFLAG_MANDATORY_25_DIGEST means: DN_MANDATORY_25, or 0 for none */
} dn_setup;

/* DFLAG_MANDATORY_25_DIGEST, 0x4000000, in the flags of a peer: OTP 25 and later read it as the flags that they ask for
 * (EXTENDED_REFERENCES, FUN_TAGS, NEW_FUN_TAGS, EXTENDED_PIDS_PORTS, EXPORT_PTR_TAG, BIT_BINARIES, NEW_FLOATS, UTF8_ATOMS,
 * MAP_TAG, BIG_CREATION, HANDSHAKE_23), so that a later release may announce it alone. A node with mandatory_25 does the same:
 * where the digest is among the flags of a name or a challenge that comes, those of mandatory_25 are added to them before
 * anything else is done with them: the lower 32 bits alone, where the name or the challenge is an older one and has no more.
 *
 * The digest is then read as what it means, and the common flags that are reported are those that this node announced and that
 * were read so. They are the same on both sides if a node that announces the digest also announces what it means, as
 * every release up to 29 does, and as every node of this library does: dn_node_new refuses another setup as DN_HALF_FLAGS,
 * whatever its own mandatory_25 is, and a mandatory_25 that is neither DN_MANDATORY_25 nor 0. So the digest changes nothing between
 * nodes of this library, which agree as the theorem says. */
#define DN_MANDATORY_25 UINT64_C(0x1070f94)

/* What a step did. */
typedef struct dn_reply {
    size_t say;            /* how many bytes are to be written on this end: fetch them by dn_node_say */
    size_t taken;          /* dn_node_received: how many bytes of those given were taken, else 0 */
    uint64_t common;       /* where the end came up: the flags that both announced */
    uint32_t id;           /* the event's end, or the one that was given out */
    uint32_t closed;       /* a dn_why where an end was closed, this one or another; else 0 */
    uint32_t closed_id;    /* which one: its connection is to be closed, once what is to be said on it was written */
    uint32_t up;           /* 1 where this end came up: what follows on its connection is the caller's */
    uint32_t creation;     /* where the end came up: the peer's creation */
    uint32_t has_creation; /* 1 where that is known: a peer of version 5 tells none, and creation is 0 */
} dn_reply;

/* A peer that is up. */
typedef struct dn_peer {
    size_t name;           /* how many bytes its name has, at most 255 */
    uint64_t common;       /* the flags that both announced */
    uint32_t id;           /* its end */
    uint32_t creation;     /* and has_creation: as in dn_reply */
    uint32_t has_creation;
} dn_peer;

/* The ends that hold a peer. */
typedef struct dn_entry {
    uint32_t state;   /* a dn_state */
    uint32_t up;      /* the end that is up, in DN_STATE_UP and DN_STATE_CHALLENGED; else 0 */
    uint32_t pending; /* the end that is not, in DN_STATE_OUT, DN_STATE_IN and DN_STATE_CHALLENGED; else 0 */
} dn_entry;

/* An end. */
typedef struct dn_end {
    size_t peer;    /* how many bytes its peer's name has: the one that was dialled, that came, or that is up; else 0 */
    uint32_t phase; /* a dn_phase */
    uint32_t why;   /* in DN_PHASE_CLOSED: a dn_why; else 0 */
} dn_end;

/* ---- a node is made, and freed */

/* Makes a node without ends. The name is `alive@host`, at most 255 bytes, without a 0 at the end. Erlang nodes take only letters,
 * digits, `_` and `-` in the alive: to `my.app@host` they answer nok. The cookie is a text as the file .erlang.cookie has it: 1 to
 * 255 bytes from 0x20 to 0x7E, and then line ends or spaces alone; it is the one for every peer that has no cookie of its own.
 * Errors: DN_IN_USE, DN_NO_SUCH (the version), DN_NAME_*, DN_COOKIE_*, DN_HALF_FLAGS (the flags that it announces, or a
 * mandatory_25 that is neither DN_MANDATORY_25 nor 0), DN_NO_MEMORY, which may also come before that. */
uint32_t dn_node_new(dn_node *node, const uint8_t *name, size_t name_len, const uint8_t *cookie, size_t cookie_len,
                     const dn_setup *setup);

/* Frees a node, with all its memory. The struct holds none then, and may be used anew. It needs no memory.
 * Errors: DN_NOT_A_NODE. */
uint32_t dn_node_free(dn_node *node);

/* Begins anew, with the setup, the cookies and the allow list that the node has: ends get their numbers from 0 on again, steps
 * are counted from 0, and nothing is kept of the ends that were. 4,294,967,295 ends last for 136 years at one connection a second,
 * and for 25 days at 2,000, as an attacker may make them: before they are used up the caller tells dn_node_lost for each end that
 * is open, forgets their numbers, and calls this. It needs no memory.
 * Errors: DN_NOT_A_NODE, DN_OPEN_ENDS. */
uint32_t dn_node_renew(dn_node *node);

/* ---- who may connect, and under which cookie: at any time. None of these is a step: it isn't counted, and what the newest
 * step said and heard stays */

/* Lets peers connect, and from the first such call on, or where dn_setup has `limited`, only peers that were let in so. The
 * text has one of the three forms of OTP's net_kernel:allow/1, and a peer is let in where one text that is kept matches its
 * name: `alive@host` that peer; a host, which is any text without an @, every peer of that host; and `alive@`, whose last byte
 * is its only @, every peer of that name at any host. Alone, an alive and a host have 1 to 253 bytes. It concerns names that
 * come later: a peer that is connected stays so. A dial is not bound by it.
 * Errors: DN_NOT_A_NODE, DN_NAME_*, DN_NO_MEMORY. */
uint32_t dn_node_allow(dn_node *node, const uint8_t *peer, size_t peer_len);

/* Keeps this text no more, where the peers that may connect are limited: once none is left, no peer may. A peer that another
 * text matches may still connect: of each text that was kept its own call. Where all may, nothing changes. A peer that is
 * connected stays so; dn_node_lost takes it off.
 * Errors: DN_NOT_A_NODE, DN_NAME_*, DN_NO_MEMORY (for the text alone). */
uint32_t dn_node_disallow(dn_node *node, const uint8_t *peer, size_t peer_len);

/* Keeps a cookie for this peer, in place of one that it has of its own. While the peer is up its cookie does not change, but it
 * may be given the one that it has. A handshake that goes on says and checks what is left of it with the new cookie.
 * Errors: DN_NOT_A_NODE, DN_NAME_*, DN_COOKIE_*, DN_PEER_IN_USE (it is up, and this is another cookie), DN_FULL (1,024 other
 * names have their own), DN_NO_MEMORY, which may also come before these two. */
uint32_t dn_node_cookie(dn_node *node, const uint8_t *peer, size_t peer_len, const uint8_t *cookie, size_t cookie_len);

/* Takes away the cookie that this peer has of its own, if it has one: its cookie is the usual one from then on.
 * Errors: DN_NOT_A_NODE, DN_NAME_*, DN_PEER_IN_USE (it is up), DN_NO_MEMORY, for the name alone,
 * which may also come before that. */
uint32_t dn_node_no_cookie(dn_node *node, const uint8_t *peer, size_t peer_len);

/* Changes the cookie of every peer that has none of its own: the one that dn_node_new was given. A handshake does not hinder it:
 * what is left of one is said and checked with the new cookie. It walks over all peers that are up or in a handshake.
 *
 * To change it while peers are up, give each of them the old one as its own by dn_node_cookie before, and take that away by
 * dn_node_no_cookie once its end is closed.
 * Errors: DN_NOT_A_NODE, DN_COOKIE_*, DN_PEER_IN_USE (a peer that is up has no cookie of its own), DN_NO_MEMORY, which may also
 * come before that. */
uint32_t dn_node_usual_cookie(dn_node *node, const uint8_t *cookie, size_t cookie_len);

/* ---- steps: each writes a dn_reply where it answers DN_OK
 *
 * A newcomer always finds room, as long as some open end is not up: where dn_node_dial or dn_node_incoming would be refused as
 * DN_FULL, an end is given up before, as by dn_node_lost with DN_WHY_GAVE_UP: the oldest of those on which no name came, and where
 * there is none the oldest of all that are not up. So connections on which nothing is said, however many are held or made, take
 * no place from a handshake that has begun; peers that say names and show no cookie can still give each other, and a handshake
 * that goes on, no longer than it takes for as many names to come as there are ends. reply->closed is DN_WHY_GAVE_UP then, and
 * reply->closed_id that end, whose connection is to be closed; it has nothing to say. Both are reported with every code, and are 0
 * if no end was given up: so look at reply->closed also if the newcomer itself is refused, as by DN_NO_MEMORY.
 *
 * A peer that is up is never given up for a newcomer. DN_FULL is left where all open ends are up; and, where most_entries is
 * less than most_open_ends, where it is used up by peers that are up or that hold a later end than the one given up. */

/* The node is to connect to this peer: reply->id is the number of a new end. The caller looks the peer up, connects, and
 * tells dn_node_opened, or dn_node_lost with DN_WHY_DIAL_FAILED. An opening of 0 says the name in the old form, any other in
 * that of OTP 23 and above. reply->closed and reply->closed_id tell the end that made room, with every code.
 * Errors: DN_NAME_*, DN_NOT_A_NODE, DN_BUSY, DN_SPENT, DN_FULL, DN_NO_MEMORY, which may also come before these four. */
uint32_t dn_node_dial(dn_node *node, const uint8_t *peer, size_t peer_len, uint32_t opening, dn_reply *reply);

/* The connection of a dialled end is there.
 * Errors: DN_NOT_A_NODE, DN_NO_SUCH_END, DN_GONE, DN_WRONG_PHASE (no connection is awaited), DN_SPENT, DN_NO_MEMORY. */
uint32_t dn_node_opened(dn_node *node, uint32_t id, dn_reply *reply);

/* A connection was accepted: reply->id is the number of a new end. reply->closed and reply->closed_id tell the end that made
 * room, with every code.
 * Errors: DN_NOT_A_NODE, DN_SPENT, DN_FULL (most_open_ends ends are up), DN_NO_MEMORY. */
uint32_t dn_node_incoming(dn_node *node, dn_reply *reply);

/* Bytes came on an end: takes the frame at their front, and reply->taken says how many they are. The caller drops those, and
 * calls again with the rest until DN_AWAITS, or until the end is up: then the rest is the caller's. 65,537 bytes hold any
 * frame. The challenge is drawn anew for each call, by a generator that nobody can foretell.
 * Errors: DN_NOT_A_NODE, DN_AWAITS, DN_NO_SUCH_END, DN_GONE, DN_WRONG_PHASE (there is no connection yet, or the end is up),
 * DN_SPENT, DN_NO_MEMORY. */
uint32_t dn_node_received(dn_node *node, uint32_t id, const uint8_t *bytes, size_t len, uint32_t challenge,
                          dn_reply *reply);

/* The same of one frame without its length, for a caller whose sockets take lengths off, as Erlang's do with {packet, 2}:
 * reply->taken is len then.
 * Errors: DN_NOT_A_NODE, DN_TOO_LONG, DN_NO_SUCH_END, DN_GONE, DN_WRONG_PHASE, DN_SPENT, DN_NO_MEMORY. */
uint32_t dn_node_body(dn_node *node, uint32_t id, const uint8_t *body, size_t len, uint32_t challenge, dn_reply *reply);

/* The same, for a host that shows its peers to others, as an Erlang emulator lists them among its nodes: where the step would close
 * an end that is up, the old connection of a peer that has connected anew, it is held. The answer is DN_SHOWN_END, nothing is done,
 * and *reply is what dn_node_ready_body tells: reply->closed_id is the end in the way. The caller closes its connection, and once that
 * is gone from the host it tells dn_node_lost of that end, and gives the same body with the same challenge again.
 *
 * Where all frames of a node are given so, an end that came up is up until its dn_node_lost. So whatever a host shows from the moment
 * that the end came up until its connection is gone is up in the node, one end of a peer at most, and two nodes that show each other
 * agree: the laws shown_ends_are_up and shown_peers_agree of dist_c_guest.
 * Errors: those of dn_node_body, and DN_SHOWN_END before DN_NO_MEMORY, which may also come in its place. */
uint32_t dn_node_guarded_body(dn_node *node, uint32_t id, const uint8_t *body, size_t len, uint32_t challenge, dn_reply *reply);

/* The connection of an end is lost or given up, for a cause of dn_why. It never lacks memory.
 * Errors: DN_NO_SUCH (the cause), DN_NOT_A_NODE, DN_NO_SUCH_END, DN_GONE. */
uint32_t dn_node_lost(dn_node *node, uint32_t id, uint32_t why, dn_reply *reply);

/* A tick is due on an end that is up: what is to be said is a packet of no bytes, 4 bytes that are 0. What other packets contain (terms, in
 * Erlang's external format) the library neither reads nor writes.
 * Errors: DN_NOT_A_NODE, DN_NO_SUCH_END, DN_GONE, DN_WRONG_PHASE (it is not up), DN_SPENT, DN_NO_MEMORY. */
uint32_t dn_node_tick(dn_node *node, uint32_t id, dn_reply *reply);

/* Forgets why the ends below this number were closed: from now on their cause is reported as DN_WHY_ENDED. They answer DN_GONE as
 * ever, no number is given out twice, and what is open stays as it is, whatever its number. This is no step: it isn't counted,
 * and the reply that dn_node_say copies stays. It needs no memory, and gives back what was kept of those ends: a node that
 * calls it from time to time, as with the number of its newest end, keeps the memory of its open ends, however many there
 * were. One that doesn't keeps some bytes of every end.
 * Errors: DN_NOT_A_NODE. */
uint32_t dn_node_forget(dn_node *node, uint32_t below);

/* ---- questions: none changes the node */

/* Copies what the newest step says, and tells its length; before the first step that is nothing. It may be asked again until
 * the next step. 1,024 bytes of room are enough for any step.
 * Errors: DN_NOT_A_NODE, DN_NO_ROOM (*len is the length). */
uint32_t dn_node_say(dn_node *node, uint8_t *room, size_t room_len, size_t *len);

/* The same frame by frame, without the lengths, for a caller whose sockets put them before: copies the body at a place of
 * what the newest step says, from 0 on. Each is to be written by itself. A tick is no such frame, but a packet with a length
 * of 4 bytes: there an empty packet is to be written.
 * Errors: DN_NOT_A_NODE, DN_NO_SUCH (it says no more bodies), DN_NO_ROOM (*len is the length). */
uint32_t dn_node_say_body(dn_node *node, size_t place, uint8_t *room, size_t room_len, size_t *len);

/* The status that the newest step says, and the one that it heard, in the frame that it took: each a dn_status. So it is known
 * why a peer said no where an end was closed with DN_WHY_STATUS_REFUSED: it heard DN_STATUS_NOK, of a peer whose own attempt
 * goes on, DN_STATUS_NOT_ALLOWED, or DN_STATUS_FALSE. A status that either side can say is reported; one of the wrong side closes
 * its end with DN_WHY_MALFORMED. Both are DN_STATUS_NONE before the first step.
 * Errors: DN_NOT_A_NODE. */
uint32_t dn_node_status(dn_node *node, uint32_t *said, uint32_t *heard);

/* What dn_node_received with these bytes and this challenge would answer, and dn_node_body with this body: the same code and
 * the same reply, and nothing is done. What dn_node_say copies stays that of the newest step.
 *
 * That is for a caller who may refuse a peer although it has shown the cookie, as one with a table of connections of its own:
 *
 *   1. It asks dn_node_ready for each frame first. Where reply->up is not 1, it makes the step by dn_node_received, as ever.
 *   2. Where reply->up is 1, the step would bring the end up. The caller looks by dn_node_end which peer that is, and whether
 *      it lets it in. On an accepted end the acknowledgement has not been said yet; on a dialled one the peer has said its own,
 *      and counts this node as up already.
 *   3. It admits the peer by making the step: dn_node_received with the same bytes and the same challenge, before any other
 *      step. Or it refuses, by dn_node_lost with DN_WHY_GAVE_UP, and closes the connection: the peer hears nothing more.
 *
 * Another step in between may change the answer, as one that closes this end. Then the step itself tells what it does.
 * Errors: those of dn_node_received, and those of dn_node_body. DN_NO_MEMORY may come where the step itself has enough. */
uint32_t dn_node_ready(dn_node *node, uint32_t id, const uint8_t *bytes, size_t len, uint32_t challenge, dn_reply *reply);
uint32_t dn_node_ready_body(dn_node *node, uint32_t id, const uint8_t *body, size_t len, uint32_t challenge, dn_reply *reply);

/* Which ends hold a peer.
 * Errors: DN_NOT_A_NODE, DN_NAME_*, DN_NO_MEMORY. */
uint32_t dn_node_entry(dn_node *node, const uint8_t *peer, size_t peer_len, dn_entry *entry);

/* The state of an end, and the name of its peer, also before it is up: which peer an end would let in; or, before dn_node_lost,
 * how far its handshake came. The name is copied to the room, which 255 bytes fill at most; the rest is reported also with
 * DN_NO_ROOM.
 * Errors: DN_NOT_A_NODE, DN_NO_ROOM. */
uint32_t dn_node_end(dn_node *node, uint32_t id, dn_end *end, uint8_t *room, size_t room_len);

/* The end that has been open and not up for the longest: the first to be given up by a caller that limits how long a handshake
 * takes. All calls together take the time of one walk over the ends.
 * Errors: DN_NOT_A_NODE, DN_NO_SUCH (every open end is up). */
uint32_t dn_node_oldest(dn_node *node, uint32_t *id);

/* The peer at a place among those that are up, in the order of their names, from 0 on; and the peer that is up on an end. The
 * name is copied to the room, which 255 bytes fill at most; the rest is reported also with DN_NO_ROOM.
 * Errors: DN_NOT_A_NODE, DN_NO_SUCH, DN_NO_ROOM. */
uint32_t dn_node_peer_at(dn_node *node, size_t place, dn_peer *peer, uint8_t *room, size_t room_len);
uint32_t dn_node_peer_of(dn_node *node, uint32_t id, dn_peer *peer, uint8_t *room, size_t room_len);

/* The peer that is up and comes next after this name, in the order of names, whether or not the name is known; the first of all
 * where name_len is 0. Called again with the name that it found, it goes through all peers, and each call searches the table once:
 * dn_node_peer_at walks the table from its beginning each time. A peer that comes up or is lost in between is met or not. The room
 * is another one than the name's.
 * Errors: DN_NOT_A_NODE, DN_NAME_*, DN_NO_MEMORY, DN_NO_SUCH (no peer comes after it), DN_NO_ROOM. */
uint32_t dn_node_next_peer(dn_node *node, const uint8_t *name, size_t name_len, dn_peer *peer, uint8_t *room, size_t room_len);

/* The digest of a challenge under a cookie's text: MD5 of the cookie and of the challenge in decimal digits.
 * Errors: DN_COOKIE_*, DN_NO_MEMORY. */
uint32_t dn_cookie_digest(const uint8_t *cookie, size_t cookie_len, uint32_t challenge, uint8_t digest[16]);

/* ---- the port mapper, EPMD: a request is a whole frame, to be written as it is; an answer has no length before it, and is
 * what came until the port mapper closed the connection, or, of a registration, 6 bytes (4 from an old one) */

typedef struct dn_info {
    uint16_t port;     /* at which the node accepts connections */
    uint16_t highest;  /* the highest version of the handshake that it knows */
    uint16_t lowest;   /* the lowest one */
    uint8_t node_type; /* 0x4d for a normal node, 0x48 for a hidden one */
    uint8_t protocol;  /* 0 for TCP over IPv4 */
} dn_info;

/* The frame by which a node registers under the part of its name before the @; the registration lasts as the connection
 * does. The frame that asks for the node of such a name. The frame that asks for all names.
 * Errors: DN_EPMD_MALFORMED (the name has more than 65,522 bytes, or 65,534 in a question), DN_NO_MEMORY, DN_NO_ROOM (*len is
 * the length). */
uint32_t dn_epmd_alive_request(const dn_info *info, const uint8_t *name, size_t name_len, uint8_t *room, size_t room_len,
                               size_t *len);
uint32_t dn_epmd_port_request(const uint8_t *name, size_t name_len, uint8_t *room, size_t room_len, size_t *len);
uint32_t dn_epmd_names_request(uint8_t *room, size_t room_len, size_t *len);

/* The answer to a registration: *result is 0 where it succeeded, and *creation is the node's then.
 * Errors: DN_EPMD_MALFORMED, DN_EPMD_SHORT, DN_EPMD_TRAILING. */
uint32_t dn_epmd_alive_answer(const uint8_t *bytes, size_t len, uint32_t *result, uint32_t *creation);

/* The answer to a lookup: *result is 0 where there is such a node, and *info tells of it then; else *info stays as it was.
 * Errors: DN_EPMD_MALFORMED, DN_EPMD_SHORT, DN_EPMD_TRAILING, DN_NO_MEMORY. */
uint32_t dn_epmd_port_answer(const uint8_t *bytes, size_t len, uint32_t *result, dn_info *info);

/* ---- a registry: what a port mapper knows and answers, for a caller that takes the place of EPMD. A connection is a number
 * that the caller gives it, and uses for no other. The first demand holds of a dn_registry as of a dn_node, but that it stays
 * on one thread */

typedef struct dn_registry {
    void *desk;
    uint64_t mark;
} dn_registry;

#define DN_REGISTRY_INIT {0, 0}

/* What became of a request. */
typedef struct dn_served {
    size_t taken;        /* how many bytes of those given were taken */
    uint32_t registered; /* 1: keep the connection, and report its end by dn_registry_closed; else close it once the answer
                            was written */
} dn_served;

/* Makes a registry without nodes, of the port mapper at this port. The first node that is accepted gets the creation `first`,
 * each later one the next number; 4,294,967,295 is the last. At most 1,024 nodes are registered at a time.
 * Errors: DN_IN_USE, DN_NO_MEMORY. */
uint32_t dn_registry_new(dn_registry *registry, uint16_t port, uint32_t first);

/* Lets a registry go, with all its memory. The struct holds none then, and may be used anew. It needs no memory.
 * Errors: DN_NOT_A_NODE. */
uint32_t dn_registry_free(dn_registry *registry);

/* Bytes came on a connection: the request of the frame at their front is answered, and the answer kept until the next one.
 * A registration that is refused, as of a name that is taken, is answered too. Where the answer to a registration cannot be
 * written, the caller closes the connection and tells dn_registry_closed.
 * Errors: DN_NOT_A_NODE, DN_AWAITS; DN_EPMD_MALFORMED, DN_EPMD_SHORT and DN_EPMD_TRAILING, where the frame is no request and
 * its connection is to be closed; DN_NO_MEMORY. */
uint32_t dn_registry_asked(dn_registry *registry, uint64_t connection, const uint8_t *bytes, size_t len, dn_served *served);

/* Copies the newest answer, and tells its length; before the first that is nothing. It may be asked again until the next
 * request. An answer to a registration has at most 6 bytes, one to a lookup 65,536, and a list of all names 281,604.
 * Errors: DN_NOT_A_NODE, DN_EPMD_MALFORMED (an answer without a spelling: none to a request that came in a frame),
 * DN_NO_MEMORY, DN_NO_ROOM (*len is the length). */
uint32_t dn_registry_say(dn_registry *registry, uint8_t *room, size_t room_len, size_t *len);

/* A connection is closed: what was registered on it is dropped. It needs no memory.
 * Errors: DN_NOT_A_NODE. */
uint32_t dn_registry_closed(dn_registry *registry, uint64_t connection);

/* ---- words, for messages: ASCII, without a 0 at the end; 16 bytes of room are enough for any */

/* The word of a code, as `NoMemory`, and `Unknown` where there is none. Errors: DN_NO_ROOM (*len is the length). */
uint32_t dn_code_name(uint32_t code, uint8_t *room, size_t room_len, size_t *len);

/* The word of a cause. Errors: DN_NO_SUCH, DN_NO_ROOM (*len is the length). */
uint32_t dn_why_name(uint32_t why, uint8_t *room, size_t room_len, size_t *len);

/* The same sizes are asserted where the library is proved. */
#if defined __cplusplus && __cplusplus >= 201103L
#define DN_ASSERT static_assert
#elif defined __STDC_VERSION__ && __STDC_VERSION__ >= 201112L
#define DN_ASSERT _Static_assert
#endif
#ifdef DN_ASSERT
DN_ASSERT(sizeof(dn_node) == 16 && sizeof(dn_registry) == 16 && sizeof(dn_served) == 16, "structs have other sizes");
DN_ASSERT(sizeof(dn_setup) == 56 && sizeof(dn_reply) == 48, "structs have other sizes");
DN_ASSERT(sizeof(dn_peer) == 32 && sizeof(dn_entry) == 12 && sizeof(dn_end) == 16, "structs have other sizes");
DN_ASSERT(sizeof(dn_info) == 8 && sizeof(size_t) == 8, "structs have other sizes");
#undef DN_ASSERT
#endif

#ifdef __cplusplus
}
#endif

#endif
