/* SPDX-License-Identifier: Apache-2.0 */
/* A node of the C library, for Erlang: each function is one call of distnode.h on one node, under that node's lock, with the
 * questions that belong to it, so that no other step comes between. It answers terms and never ends the emulator.
 *
 * The library's three demands are met here: a node lives in a resource that is zero before dn_node_new and is let go once;
 * the lock gives it to one call at a time; no pointer is null, and none leads to another's bytes.
 *
 * A process of a connection makes the steps of its own end. Where such a step gives out an end, closes one or brings one up,
 * the process that made the node gets a message of it before the lock is released: so the messages come in the order of the
 * steps, and a process that is killed right after its step has reported it.
 *
 * An end that came up stays up until gone(): a frame that would close it is held, and lost() leaves it as it is.
 *
 * Where a recording was asked for, each call that changes a node is written with its answer before the lock is released: so nothing that
 * it said is sent before it stands there, and a process that is killed leaves all that others can know of it.
 *
 * Where the module is loaded anew, its library takes the nodes over from the one before, if both are of one version and layout
 * (upgrade). A call that runs in the library before goes on there: the node's lock is in its resource, so no two calls meet. */
#define _GNU_SOURCE
#include <distnode.h>
#include <erl_nif.h>
#include <fcntl.h>
#include <stdatomic.h>
#include <string.h>
#include <sys/random.h>
#include <sys/stat.h>
#include <sys/uio.h>
#include <time.h>
#include <unistd.h>

/* owner: the process that made the node. changes: how often a cookie or the allow list was changed. */
typedef struct {
    dn_node node;
    ErlNifMutex *lock;
    ErlNifPid owner;
    ErlNifUInt64 changes;
} kept;

/* Goes up with each change of `kept`, of `shared`, of a function, or of what the library has behind a dn_node, that comes without a new
 * version. */
#ifndef DISTNODE_LAYOUT
#define DISTNODE_LAYOUT 3
#endif
#define VERSION (DN_VERSION_MAJOR * 1000000 + DN_VERSION_MINOR * 1000 + DN_VERSION_PATCH)

/* The private data, which a library hands on to the one that is loaded in its place. Version and layout come first in every version, since
 * others read them. users: how many libraries have this. recording: the file of the recording, or -1. */
typedef struct {
    uint32_t version, layout;
    atomic_uint users;
    int recording;
} shared;

static ErlNifResourceType *kept_type;
static ERL_NIF_TERM a_ok, a_error, a_none, a_unknown, a_made, a_step, a_arrived, a_ready, a_held, a_changed;

static void kept_drop(ErlNifEnv *env, void *it) {
    kept *k = it;
    (void)env;
    (void)dn_node_free(&k->node);
    if (k->lock) enif_mutex_destroy(k->lock);
}

/* The node of a term, and its lock: the last of what a call reads of its arguments. */
static int locked(ErlNifEnv *env, ERL_NIF_TERM term, kept **k) {
    if (!enif_get_resource(env, term, kept_type, (void **)k)) return 0;
    enif_mutex_lock((*k)->lock);
    return 1;
}

/* Erlang may answer a null pointer for an empty binary. */
static int bytes_of(ErlNifEnv *env, ERL_NIF_TERM term, ErlNifBinary *bin) {
    static unsigned char nothing[1];
    if (!enif_inspect_binary(env, term, bin)) return 0;
    if (!bin->data) bin->data = nothing;
    return 1;
}

static ERL_NIF_TERM binary_of(ErlNifEnv *env, const uint8_t *bytes, size_t len) {
    ERL_NIF_TERM term;
    unsigned char *room = enif_make_new_binary(env, len, &term);
    if (len) memcpy(room, bytes, len);
    return term;
}

/* The name of a code or of a cause. */
static ERL_NIF_TERM word(ErlNifEnv *env, uint32_t (*name)(uint32_t, uint8_t *, size_t, size_t *), uint32_t number) {
    uint8_t room[16];
    size_t len = 0;
    if (name(number, room, sizeof room, &len)) return a_unknown;
    return enif_make_atom_len(env, (const char *)room, len);
}

static ERL_NIF_TERM code_term(ErlNifEnv *env, uint32_t code) {
    return code ? enif_make_tuple2(env, a_error, word(env, dn_code_name, code)) : a_ok;
}

/* ---- what a step did */

static ERL_NIF_TERM closed_term(ErlNifEnv *env, const dn_reply *reply) {
    if (!reply->closed) return a_none;
    return enif_make_tuple2(env, enif_make_uint(env, reply->closed_id), word(env, dn_why_name, reply->closed));
}

static ERL_NIF_TERM status_word(ErlNifEnv *env, uint32_t status) {
    static const char *const words[] = {"none", "ok", "ok_simultaneous", "nok", "not_allowed", "alive", "true", "false"};
    return enif_make_atom(env, words[status < sizeof words / sizeof *words ? status : 0]);
}

/* The frames that the newest step says, as a list of bodies. A body has at most the 1,024 bytes of a step. */
static ERL_NIF_TERM bodies_term(ErlNifEnv *env, kept *k) {
    ERL_NIF_TERM said[8];
    uint8_t room[1024];
    unsigned count = 0;
    size_t len = 0;
    while (count < sizeof said / sizeof *said && !dn_node_say_body(&k->node, count, room, sizeof room, &len))
        said[count++] = binary_of(env, room, len);
    return enif_make_list_from_array(env, said, count);
}

/* The peer that an end holds: a name, or none. */
static ERL_NIF_TERM peer_term(ErlNifEnv *env, kept *k, uint32_t id) {
    uint8_t room[255];
    dn_end end = {0, 0, 0};
    if (dn_node_end(&k->node, id, &end, room, sizeof room) || !end.peer) return a_none;
    return binary_of(env, room, end.peer);
}

static ERL_NIF_TERM up_term(ErlNifEnv *env, kept *k, const dn_reply *reply) {
    if (!reply->up) return a_none;
    return enif_make_tuple3(env, peer_term(env, k, reply->id), enif_make_uint64(env, reply->common),
                            reply->has_creation ? enif_make_uint(env, reply->creation) : a_unknown);
}

/* {step, Id, Bodies, Closed, Received, Up}, or {error, Code, Closed}: an end that made room is reported beside any code. */
static ERL_NIF_TERM step_term(ErlNifEnv *env, kept *k, uint32_t code, const dn_reply *reply) {
    uint32_t said = 0, received = 0;
    if (code) return enif_make_tuple3(env, a_error, word(env, dn_code_name, code), closed_term(env, reply));
    (void)dn_node_status(&k->node, &said, &received);
    return enif_make_tuple6(env, a_step, enif_make_uint(env, reply->id), reply->say ? bodies_term(env, k) : enif_make_list(env, 0),
                            closed_term(env, reply), status_word(env, received), up_term(env, k, reply));
}

/* The owner gets {distnode_made, Node, Pid, What, Step} of a step of Pid's end. */
static void report(ErlNifEnv *env, kept *k, ERL_NIF_TERM node, ERL_NIF_TERM pid, ERL_NIF_TERM what, ERL_NIF_TERM step) {
    (void)enif_send(env, &k->owner, NULL, enif_make_tuple5(env, a_made, node, pid, what, step));
}

/* What a step of an end's own process did; `what` is the controller of the end's socket, where the step may bring it up. */
static ERL_NIF_TERM own_step_term(ErlNifEnv *env, kept *k, ERL_NIF_TERM node, uint32_t code, const dn_reply *reply, ERL_NIF_TERM what) {
    ERL_NIF_TERM term = step_term(env, k, code, reply);
    ErlNifPid self;
    if ((reply->closed || (!code && reply->up)) && enif_self(env, &self)) report(env, k, node, enif_make_pid(env, &self), what, term);
    return term;
}

/* ---- a recording of the calls */

/* Where a recording was asked for, appends {Nanoseconds, Caller, Call, Arguments, Answer} behind its length, by one write. The nanoseconds
 * are those since this machine was started: by them the recordings of several emulators are put in one order. What can't be written is
 * missing there. */
static void record(ErlNifEnv *env, const char *call, int argc, const ERL_NIF_TERM argv[], ERL_NIF_TERM answer) {
    struct timespec now = {0, 0};
    int file = ((shared *)enif_priv_data(env))->recording;
    ErlNifPid self;
    ErlNifBinary bytes;
    if (file < 0 || !enif_self(env, &self)) return;
    (void)clock_gettime(CLOCK_MONOTONIC, &now);
    ERL_NIF_TERM line = enif_make_tuple5(env, enif_make_uint64(env, (ErlNifUInt64)now.tv_sec * 1000000000 + (ErlNifUInt64)now.tv_nsec),
                                         enif_make_pid(env, &self), enif_make_atom(env, call),
                                         enif_make_list_from_array(env, argv, (unsigned)argc), answer);
    if (!enif_term_to_binary(env, line, &bytes)) return;
    uint8_t size[4] = {(uint8_t)(bytes.size >> 24), (uint8_t)(bytes.size >> 16), (uint8_t)(bytes.size >> 8), (uint8_t)bytes.size};
    struct iovec parts[2] = {{size, sizeof size}, {bytes.data, bytes.size}};
    ssize_t written = writev(file, parts, 2);
    (void)written;
    enif_release_binary(&bytes);
}

/* Ends each call that changes a node, which has taken its lock. */
static ERL_NIF_TERM done(ErlNifEnv *env, kept *k, const char *call, int argc, const ERL_NIF_TERM argv[], ERL_NIF_TERM answer) {
    record(env, call, argc - 1, argv + 1, answer);
    enif_mutex_unlock(k->lock);
    return answer;
}

/* The descriptor of a regular file to be appended to, or -1. Another kind of file might hold the emulator up: a FIFO does while nobody
 * reads it. Where others may read the file, or have put it or a link there, it gets no cookies. */
static int open_own(const char *name) {
    struct stat is;
    int file = open(name, O_WRONLY | O_CREAT | O_APPEND | O_CLOEXEC | O_NONBLOCK | O_NOFOLLOW, 0600);
    if (file < 0) return -1;
    if (!fstat(file, &is) && S_ISREG(is.st_mode) && is.st_uid == geteuid() && is.st_nlink == 1 && !(is.st_mode & 077)) return file;
    (void)close(file);
    return -1;
}

/* recording(File): from now on the calls are recorded there, behind what the file has. It has cookies. */
static ERL_NIF_TERM nif_recording(ErlNifEnv *env, int argc, const ERL_NIF_TERM argv[]) {
    shared *s = enif_priv_data(env);
    char file[4096];
    (void)argc;
    if (enif_get_string(env, argv[0], file, sizeof file, ERL_NIF_LATIN1) <= 0) return enif_make_badarg(env);
    if (s->recording < 0) s->recording = open_own(file);
    return s->recording >= 0 ? a_ok : a_error;
}

/* connection(Own, Other): the caller has a connection with these addresses */
static ERL_NIF_TERM nif_connection(ErlNifEnv *env, int argc, const ERL_NIF_TERM argv[]) {
    record(env, "connection", argc, argv, a_ok);
    return a_ok;
}

/* ---- the node, its cookies and its allow list */

static kept *kept_new(void) {
    kept *k = enif_alloc_resource(kept_type, sizeof *k);
    if (!k) return NULL;
    memset(k, 0, sizeof *k);
    k->lock = enif_mutex_create("distnode");
    if (k->lock) return k;
    enif_release_resource(k);
    return NULL;
}

/* new(Name, Cookie, Flags, Required, Creation, MostEnds) */
static ERL_NIF_TERM nif_new(ErlNifEnv *env, int argc, const ERL_NIF_TERM argv[]) {
    ErlNifBinary name, cookie;
    ErlNifUInt64 flags, required;
    unsigned creation, most_ends;
    if (!bytes_of(env, argv[0], &name) || !bytes_of(env, argv[1], &cookie) || !enif_get_uint64(env, argv[2], &flags) ||
        !enif_get_uint64(env, argv[3], &required) || !enif_get_uint(env, argv[4], &creation) ||
        !enif_get_uint(env, argv[5], &most_ends))
        return enif_make_badarg(env);
    kept *k = kept_new();
    if (!k) return code_term(env, DN_NO_MEMORY);
    (void)enif_self(env, &k->owner);
    dn_setup setup = {.flags = flags, .required = required, .creation = creation, .version = 6, .most_ends = most_ends,
                      .mandatory_25 = DN_MANDATORY_25};
    uint32_t code = dn_node_new(&k->node, name.data, name.size, cookie.data, cookie.size, &setup);
    ERL_NIF_TERM node = enif_make_resource(env, k);
    enif_release_resource(k);
    record(env, "new", argc, argv, code_term(env, code));
    return code ? code_term(env, code) : enif_make_tuple2(env, a_ok, node);
}

/* drop(Node): no step is made any more */
static ERL_NIF_TERM nif_drop(ErlNifEnv *env, int argc, const ERL_NIF_TERM argv[]) {
    kept *k;
    if (!locked(env, argv[0], &k)) return enif_make_badarg(env);
    uint32_t code = dn_node_free(&k->node);
    return done(env, k, "drop", argc, argv, code_term(env, code));
}

/* cookie(Node, Peer, Cookie) */
static ERL_NIF_TERM nif_cookie(ErlNifEnv *env, int argc, const ERL_NIF_TERM argv[]) {
    kept *k;
    ErlNifBinary peer, cookie;
    if (!bytes_of(env, argv[1], &peer) || !bytes_of(env, argv[2], &cookie) || !locked(env, argv[0], &k)) return enif_make_badarg(env);
    uint32_t code = dn_node_cookie(&k->node, peer.data, peer.size, cookie.data, cookie.size);
    k->changes++;
    return done(env, k, "cookie", argc, argv, code_term(env, code));
}

/* usual_cookie(Node, Cookie) */
static ERL_NIF_TERM nif_usual_cookie(ErlNifEnv *env, int argc, const ERL_NIF_TERM argv[]) {
    kept *k;
    ErlNifBinary cookie;
    if (!bytes_of(env, argv[1], &cookie) || !locked(env, argv[0], &k)) return enif_make_badarg(env);
    uint32_t code = dn_node_usual_cookie(&k->node, cookie.data, cookie.size);
    k->changes++;
    return done(env, k, "usual_cookie", argc, argv, code_term(env, code));
}

static ERL_NIF_TERM listed(ErlNifEnv *env, const char *name, int argc, const ERL_NIF_TERM argv[],
                           uint32_t (*call)(dn_node *, const uint8_t *, size_t)) {
    kept *k;
    ErlNifBinary peer;
    if (!bytes_of(env, argv[1], &peer) || !locked(env, argv[0], &k)) return enif_make_badarg(env);
    uint32_t code = call(&k->node, peer.data, peer.size);
    k->changes++;
    return done(env, k, name, argc, argv, code_term(env, code));
}

/* allow(Node, Peer) */
static ERL_NIF_TERM nif_allow(ErlNifEnv *env, int argc, const ERL_NIF_TERM argv[]) {
    return listed(env, "allow", argc, argv, dn_node_allow);
}

/* disallow(Node, Peer) */
static ERL_NIF_TERM nif_disallow(ErlNifEnv *env, int argc, const ERL_NIF_TERM argv[]) {
    return listed(env, "disallow", argc, argv, dn_node_disallow);
}

/* a node and a peer are given: takes the node's lock and the peer's entry */
static int entry_of(ErlNifEnv *env, const ERL_NIF_TERM argv[], kept **k, ErlNifBinary *peer, dn_entry *entry, uint32_t *code) {
    if (!bytes_of(env, argv[1], peer) || !locked(env, argv[0], k)) return 0;
    *code = dn_node_entry(&(*k)->node, peer->data, peer->size, entry);
    return 1;
}

/* no_cookie(Node, Peer): of a peer without an end */
static ERL_NIF_TERM nif_no_cookie(ErlNifEnv *env, int argc, const ERL_NIF_TERM argv[]) {
    kept *k;
    ErlNifBinary peer;
    dn_entry entry = {0, 0, 0};
    uint32_t code;
    if (!entry_of(env, argv, &k, &peer, &entry, &code)) return enif_make_badarg(env);
    if (!code) code = entry.state ? DN_PEER_IN_USE : dn_node_no_cookie(&k->node, peer.data, peer.size);
    if (!code) k->changes++;
    return done(env, k, "no_cookie", argc, argv, code_term(env, code));
}

/* changes(Node): how often a cookie or the allow list was changed */
static ERL_NIF_TERM nif_changes(ErlNifEnv *env, int argc, const ERL_NIF_TERM argv[]) {
    kept *k;
    (void)argc;
    if (!locked(env, argv[0], &k)) return enif_make_badarg(env);
    ErlNifUInt64 changes = k->changes;
    enif_mutex_unlock(k->lock);
    return enif_make_uint64(env, changes);
}

/* forget(Node, Below) */
static ERL_NIF_TERM nif_forget(ErlNifEnv *env, int argc, const ERL_NIF_TERM argv[]) {
    kept *k;
    unsigned below;
    (void)argc;
    if (!enif_get_uint(env, argv[1], &below) || !locked(env, argv[0], &k)) return enif_make_badarg(env);
    uint32_t code = dn_node_forget(&k->node, below);
    enif_mutex_unlock(k->lock);
    return code_term(env, code);
}

/* ---- steps */

/* dial(Node, Peer) */
static ERL_NIF_TERM nif_dial(ErlNifEnv *env, int argc, const ERL_NIF_TERM argv[]) {
    kept *k;
    ErlNifBinary peer;
    dn_reply reply = {0};
    if (!bytes_of(env, argv[1], &peer) || !locked(env, argv[0], &k)) return enif_make_badarg(env);
    uint32_t code = dn_node_dial(&k->node, peer.data, peer.size, 1, &reply);
    ERL_NIF_TERM term = step_term(env, k, code, &reply);
    return done(env, k, "dial", argc, argv, term);
}

/* opened(Node, Id), by the process that dials */
static ERL_NIF_TERM nif_opened(ErlNifEnv *env, int argc, const ERL_NIF_TERM argv[]) {
    kept *k;
    unsigned id;
    dn_reply reply = {0};
    if (!enif_get_uint(env, argv[1], &id) || !locked(env, argv[0], &k)) return enif_make_badarg(env);
    uint32_t code = dn_node_opened(&k->node, id, &reply);
    ERL_NIF_TERM term = own_step_term(env, k, argv[0], code, &reply, a_step);
    return done(env, k, "opened", argc, argv, term);
}

typedef struct {
    kept *k;
    unsigned id, challenge;
    ErlNifBinary body;
} frame;

static int frame_of(ErlNifEnv *env, const ERL_NIF_TERM argv[], frame *f) {
    return enif_get_uint(env, argv[1], &f->id) && bytes_of(env, argv[2], &f->body) && enif_get_uint(env, argv[3], &f->challenge) &&
           locked(env, argv[0], &f->k);
}

/* A frame that would close an end that is up is held: that end is in closed_id then, and nothing is closed. */
static uint32_t take(frame *f, dn_reply *reply) {
    uint32_t code = dn_node_guarded_body(&f->k->node, f->id, f->body.data, f->body.size, f->challenge, reply);
    if (code == DN_SHOWN_END) reply->closed = 0;
    return code;
}

static ERL_NIF_TERM own_body(ErlNifEnv *env, frame *f, ERL_NIF_TERM node, ERL_NIF_TERM what) {
    dn_reply reply = {0};
    uint32_t code = take(f, &reply);
    if (code == DN_SHOWN_END) return enif_make_tuple2(env, a_held, enif_make_uint(env, reply.closed_id));
    return own_step_term(env, f->k, node, code, &reply, what);
}

/* take_body(Node, Id, Body, Challenge, Controller), by the end's process, with the controller of its socket; but {held, Shown}, and nothing
 * done, where that would close this other end, which is up and is to be gone first */
static ERL_NIF_TERM nif_take_body(ErlNifEnv *env, int argc, const ERL_NIF_TERM argv[]) {
    frame f;
    if (!frame_of(env, argv, &f)) return enif_make_badarg(env);
    ERL_NIF_TERM term = own_body(env, &f, argv[0], argv[4]);
    return done(env, f.k, "take_body", argc, argv, term);
}

/* early_body(Node, Id, Body, Challenge), by the end's process; but {ready, Up}, and nothing done, where that would bring the end up, or the
 * error where it is not known whether it would */
static ERL_NIF_TERM nif_early_body(ErlNifEnv *env, int argc, const ERL_NIF_TERM argv[]) {
    frame f;
    dn_reply reply = {0};
    if (!frame_of(env, argv, &f)) return enif_make_badarg(env);
    uint32_t code = dn_node_ready_body(&f.k->node, f.id, f.body.data, f.body.size, f.challenge, &reply);
    ERL_NIF_TERM term = code       ? step_term(env, f.k, code, &reply)
                        : reply.up ? enif_make_tuple2(env, a_ready, up_term(env, f.k, &reply))
                                   : own_body(env, &f, argv[0], a_step);
    return done(env, f.k, "early_body", argc, argv, term);
}

/* The end is there, so its owner has to know of it whatever becomes of the frame. */
static ERL_NIF_TERM first_frame(ErlNifEnv *env, frame *f, ERL_NIF_TERM node, ERL_NIF_TERM pid, const dn_reply *newcomer) {
    dn_reply reply = {0};
    ERL_NIF_TERM id = enif_make_uint(env, newcomer->id);
    f->id = newcomer->id;
    uint32_t code = take(f, &reply);
    ERL_NIF_TERM step = step_term(env, f->k, code, &reply);
    report(env, f->k, node, pid, enif_make_tuple4(env, a_arrived, id, peer_term(env, f->k, f->id), closed_term(env, newcomer)), step);
    return enif_make_tuple3(env, a_arrived, id, step);
}

/* arrive(Node, Changes, Body, Challenge, Pid): this process has accepted a connection, and this is its first frame: {arrived, Id, Step};
 * or `changed`, and nothing done, where cookies or the allow list were changed since; or {error, Code, Closed}, and there is no end */
static ERL_NIF_TERM nif_arrive(ErlNifEnv *env, int argc, const ERL_NIF_TERM argv[]) {
    frame f;
    ErlNifUInt64 changes;
    dn_reply reply = {0};
    ERL_NIF_TERM term = a_changed;
    if (!enif_get_uint64(env, argv[1], &changes) || !bytes_of(env, argv[2], &f.body) || !enif_get_uint(env, argv[3], &f.challenge) ||
        !locked(env, argv[0], &f.k))
        return enif_make_badarg(env);
    if (changes == f.k->changes) {
        uint32_t code = dn_node_incoming(&f.k->node, &reply);
        term = code ? own_step_term(env, f.k, argv[0], code, &reply, a_step) : first_frame(env, &f, argv[0], argv[4], &reply);
    }
    return done(env, f.k, "arrive", argc, argv, term);
}

static uint32_t phase_of(kept *k, uint32_t id, uint32_t *why) {
    uint8_t room[255];
    dn_end end = {0, 0, 0};
    (void)dn_node_end(&k->node, id, &end, room, sizeof room);
    *why = end.why;
    return end.phase;
}

/* the end is lost, but where it is up while its socket is there */
static ERL_NIF_TERM lost(ErlNifEnv *env, int argc, const ERL_NIF_TERM argv[], unsigned why, int is_gone) {
    kept *k;
    unsigned id, known;
    dn_reply reply = {0};
    if (!enif_get_uint(env, argv[1], &id) || !locked(env, argv[0], &k)) return enif_make_badarg(env);
    int is_shown = !is_gone && phase_of(k, id, &known) == DN_PHASE_UP;
    uint32_t code = is_shown ? DN_SHOWN_END : dn_node_lost(&k->node, id, why, &reply);
    ERL_NIF_TERM term = step_term(env, k, code, &reply);
    return done(env, k, is_gone ? "gone" : "lost", argc, argv, term);
}

/* lost(Node, Id, Why) with Why a number of dn_why: of an end that is not up */
static ERL_NIF_TERM nif_lost(ErlNifEnv *env, int argc, const ERL_NIF_TERM argv[]) {
    unsigned why;
    return enif_get_uint(env, argv[2], &why) ? lost(env, argc, argv, why, 0) : enif_make_badarg(env);
}

/* gone(Node, Id): the socket of this end, which came up, is gone from the emulator */
static ERL_NIF_TERM nif_gone(ErlNifEnv *env, int argc, const ERL_NIF_TERM argv[]) {
    return lost(env, argc, argv, DN_WHY_ENDED, 1);
}

/* give_up(Node, Peer): the end by which a peer that is not up is about to connect is lost; none, and nothing done, where there is none */
static ERL_NIF_TERM nif_give_up(ErlNifEnv *env, int argc, const ERL_NIF_TERM argv[]) {
    kept *k;
    ErlNifBinary peer;
    dn_entry entry = {0, 0, 0};
    dn_reply reply = {0};
    ERL_NIF_TERM term = a_none;
    uint32_t code;
    if (!entry_of(env, argv, &k, &peer, &entry, &code)) return enif_make_badarg(env);
    if (!code && (entry.state == DN_STATE_OUT || entry.state == DN_STATE_IN)) {
        code = dn_node_lost(&k->node, entry.pending, DN_WHY_GAVE_UP, &reply);
        term = step_term(env, k, code, &reply);
    }
    return done(env, k, "give_up", argc, argv, term);
}

/* ---- questions */

/* cause(Node, Id): why this end is closed, or none */
static ERL_NIF_TERM nif_cause(ErlNifEnv *env, int argc, const ERL_NIF_TERM argv[]) {
    kept *k;
    unsigned id, why;
    (void)argc;
    if (!enif_get_uint(env, argv[1], &id) || !locked(env, argv[0], &k)) return enif_make_badarg(env);
    uint32_t phase = phase_of(k, id, &why);
    enif_mutex_unlock(k->lock);
    return phase == DN_PHASE_CLOSED ? word(env, dn_why_name, why) : a_none;
}

/* up_end(Node, Peer): the end that is up with this peer, or none */
static ERL_NIF_TERM nif_up_end(ErlNifEnv *env, int argc, const ERL_NIF_TERM argv[]) {
    kept *k;
    ErlNifBinary peer;
    dn_entry entry = {0, 0, 0};
    uint32_t code;
    (void)argc;
    if (!entry_of(env, argv, &k, &peer, &entry, &code)) return enif_make_badarg(env);
    enif_mutex_unlock(k->lock);
    if (code || (entry.state != DN_STATE_UP && entry.state != DN_STATE_CHALLENGED)) return a_none;
    return enif_make_uint(env, entry.up);
}

/* peers(Node): [{Peer, Id, Common, Creation}], the peers that are up */
static ERL_NIF_TERM nif_peers(ErlNifEnv *env, int argc, const ERL_NIF_TERM argv[]) {
    kept *k;
    uint8_t name[255], last[255];
    dn_peer peer;
    (void)argc;
    if (!locked(env, argv[0], &k)) return enif_make_badarg(env);
    ERL_NIF_TERM list = enif_make_list(env, 0);
    for (size_t len = 0; !dn_node_next_peer(&k->node, last, len, &peer, name, sizeof name); len = peer.name) {
        memcpy(last, name, peer.name);
        ERL_NIF_TERM row =
            enif_make_tuple4(env, binary_of(env, name, peer.name), enif_make_uint(env, peer.id),
                             enif_make_uint64(env, peer.common),
                             peer.has_creation ? enif_make_uint(env, peer.creation) : a_unknown);
        list = enif_make_list_cell(env, row, list);
    }
    enif_mutex_unlock(k->lock);
    return list;
}

/* challenge(): a number that nobody can foresee */
static ERL_NIF_TERM nif_challenge(ErlNifEnv *env, int argc, const ERL_NIF_TERM argv[]) {
    uint32_t drawn;
    (void)argc, (void)argv;
    if (getrandom(&drawn, sizeof drawn, 0) != (ssize_t)sizeof drawn) return enif_raise_exception(env, a_none);
    return enif_make_uint(env, drawn);
}

/* ---- the library is loaded, takes another's place, and is let go */

/* Why a library is refused. erlang:load_nif/2 says the number. */
enum refusal { NOT_OPENED = 1, OTHER_VERSION = 2, OTHER_LAYOUT = 3 };

/* What a library has by itself: from now on the nodes are dropped by it. A file that is loaded again writes what it has already. */
static int begin(ErlNifEnv *env, ErlNifResourceFlags how) {
    ErlNifResourceType *type = enif_open_resource_type(env, NULL, "distnode", kept_drop, how, NULL);
    if (!type) return NOT_OPENED;
    kept_type = type;
    a_ok = enif_make_atom(env, "ok");
    a_error = enif_make_atom(env, "error");
    a_none = enif_make_atom(env, "none");
    a_unknown = enif_make_atom(env, "unknown");
    a_made = enif_make_atom(env, "distnode_made");
    a_step = enif_make_atom(env, "step");
    a_arrived = enif_make_atom(env, "arrived");
    a_ready = enif_make_atom(env, "ready");
    a_held = enif_make_atom(env, "held");
    a_changed = enif_make_atom(env, "changed");
    return 0;
}

static int load(ErlNifEnv *env, void **priv, ERL_NIF_TERM info) {
    (void)info;
    if (begin(env, ERL_NIF_RT_CREATE)) return NOT_OPENED;
    shared *s = enif_alloc(sizeof *s);
    if (!s) return NOT_OPENED;
    s->version = VERSION;
    s->layout = DISTNODE_LAYOUT;
    atomic_init(&s->users, 1);
    s->recording = -1;
    *priv = s;
    return 0;
}

/* Another library has the nodes. Where that has no private data it is an older one. Who is refused has changed nothing. */
static int upgrade(ErlNifEnv *env, void **priv, void **old, ERL_NIF_TERM info) {
    shared *s = *old;
    (void)info;
    if (!s || s->version != VERSION) return OTHER_VERSION;
    if (s->layout != DISTNODE_LAYOUT) return OTHER_LAYOUT;
    if (begin(env, ERL_NIF_RT_TAKEOVER)) return NOT_OPENED;
    atomic_fetch_add(&s->users, 1);
    *priv = s;
    return 0;
}

/* The module was purged, or its last node was dropped after that. */
static void unload(ErlNifEnv *env, void *priv) {
    shared *s = priv;
    (void)env;
    if (atomic_fetch_sub(&s->users, 1) > 1) return;
    if (s->recording >= 0) (void)close(s->recording);
    enif_free(s);
}

static ErlNifFunc functions[] = {
    {"new", 6, nif_new, 0},           {"cookie", 3, nif_cookie, 0},   {"usual_cookie", 2, nif_usual_cookie, 0},
    {"allow", 2, nif_allow, 0},       {"disallow", 2, nif_disallow, 0}, {"changes", 1, nif_changes, 0},
    {"forget", 2, nif_forget, 0},     {"dial", 2, nif_dial, 0},       {"opened", 2, nif_opened, 0},
    {"early_body", 4, nif_early_body, 0}, {"take_body", 5, nif_take_body, 0}, {"arrive", 5, nif_arrive, 0},
    {"lost", 3, nif_lost, 0},         {"cause", 2, nif_cause, 0},     {"up_end", 2, nif_up_end, 0},
    {"peers", 1, nif_peers, 0},       {"challenge", 0, nif_challenge, 0}, {"no_cookie", 2, nif_no_cookie, 0},
    {"give_up", 2, nif_give_up, 0},   {"gone", 2, nif_gone, 0},       {"drop", 1, nif_drop, 0},
    {"recording", 1, nif_recording, 0}, {"connection", 2, nif_connection, 0},
};

ERL_NIF_INIT(distnode_nif, functions, load, NULL, upgrade, unload)
