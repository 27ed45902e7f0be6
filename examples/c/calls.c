/* SPDX-License-Identifier: Apache-2.0 */
/* What calls answer beside the handshake of accepted.c: a digest, the port mapper's messages, a node that is set up and dials,
 * nodes that come to their limits, words, a registry that forgets a connection; the handshake of accepted.c without lengths,
 * first refused and then admitted; the statuses that are said and heard; who makes room for whom; cookies that change. It exits
 * with the number of the first check that fails, or 0. The digest is the one that OTP's `dist_util:gen_digest` gives, by the
 * replayed handshake of examples/; requests, answers and the name that is said are as the ERTS User's Guide lays them out, EPMD
 * Protocol and Distribution Handshake. */
#include <distnode.h>

#include <string.h>

#define TEXT(s) (const uint8_t *)(s), sizeof(s) - 1
#define IS(place, s) (!memcmp(place, s, sizeof(s) - 1))

static int digests(void) {
    uint8_t digest[16];
    if (dn_cookie_digest(TEXT("ABCDEFGHIJKLMNOPQRSTUVWXYZabcdefghijklmnopqrstuvwxyz0\n"), 123456789, digest)) return 1;
    if (!IS(digest, "\xd1\x74\xab\x98\xd2\x77\xd9\xf5\xa5\x61\x1c\x2c\x9f\x41\x9d\x9f")) return 2;
    if (dn_cookie_digest(TEXT(""), 0, digest) != DN_COOKIE_EMPTY) return 3;
    return 0;
}

static int registers(void) {
    dn_info info = {.port = 0x1234, .highest = 6, .lowest = 5, .node_type = 0x48, .protocol = 0};
    uint8_t frame[17];
    size_t len = 0;
    uint32_t result = 9, creation = 9;
    if (dn_epmd_alive_request(&info, TEXT("ab"), frame, sizeof frame, &len) || len != 17) return 11;
    if (!IS(frame, "\0\x0fx\x12\x34\x48\0\0\x06\0\x05\0\x02" "ab\0\0")) return 12;
    if (dn_epmd_alive_request(&info, TEXT("abc"), frame, sizeof frame, &len) != DN_NO_ROOM || len != 18) return 13;
    if (dn_epmd_alive_answer(TEXT("v\0\0\0\0\x07"), &result, &creation) || result != 0 || creation != 7) return 14;
    if (dn_epmd_alive_answer(TEXT("v\0\0"), &result, &creation) != DN_EPMD_SHORT) return 15;
    if (result != 0 || creation != 7) return 16;
    return 0;
}

static int asks(void) {
    dn_info info = {0};
    uint8_t frame[5];
    size_t len = 0;
    uint32_t result = 9;
    if (dn_epmd_port_request(TEXT("ab"), frame, sizeof frame, &len) || len != 5 || !IS(frame, "\0\x03zab")) return 17;
    if (dn_epmd_names_request(frame, sizeof frame, &len) || len != 3 || !IS(frame, "\0\x01n")) return 18;
    if (dn_epmd_port_answer(TEXT("w\0\x12\x34M\0\0\x06\0\x05\0\x02" "ab\0\0"), &result, &info) || result != 0) return 19;
    if (info.port != 0x1234 || info.highest != 6 || info.lowest != 5 || info.node_type != 0x4d || info.protocol) return 20;
    return 0;
}

static int dials(void) {
    dn_node node = DN_NODE_INIT;
    dn_setup setup = {.flags = 0x401000004, .creation = 5};
    dn_reply reply = {0};
    uint8_t name[28];
    size_t len = 0;
    if (dn_node_new(&node, TEXT("a@127.0.0.1"), TEXT("secret"), &setup)) return 51;
    if (dn_node_cookie(&node, TEXT("b@127.0.0.1"), TEXT("another"))) return 52;
    if (dn_node_allow(&node, TEXT("b@127.0.0.1"))) return 53;
    if (dn_node_dial(&node, TEXT("b@127.0.0.1"), 1, &reply) || reply.id != 0 || reply.say) return 54;
    if (dn_node_allow(&node, TEXT("c@127.0.0.1"))) return 55;
    if (dn_node_opened(&node, 0, &reply) || reply.say != 28) return 56;
    if (dn_node_say(&node, name, sizeof name, &len) || len != 28) return 57;
    if (!IS(name, "\0\x1aN\0\0\0\x04\x01\0\0\x04\0\0\0\x05\0\x0b" "a@127.0.0.1")) return 58;
    if (dn_node_free(&node)) return 59;
    return 0;
}

/* This end made room, or none did where the cause is 0. */
static int made_room(const dn_reply *reply, uint32_t closed, uint32_t id) {
    return reply->closed == closed && reply->closed_id == id;
}

/* One peer has an entry, two ends are open, and five ends or five steps are all: an end on which no name came makes room, then the
 * oldest one, and none frees a number. */
static int ends_at_its_limits(const dn_setup *setup) {
    dn_node node = DN_NODE_INIT;
    dn_reply reply = {.closed = 9, .closed_id = 9};
    uint32_t oldest = 9;
    if (dn_node_incoming(&node, &reply) != DN_NOT_A_NODE || !made_room(&reply, 0, 0)) return 60;
    if (dn_node_new(&node, TEXT("a@127.0.0.1"), TEXT("secret"), setup)) return 61;
    if (dn_node_dial(&node, TEXT("b@127.0.0.1"), 1, &reply) || reply.id != 0 || !made_room(&reply, 0, 0)) return 62;
    if (dn_node_incoming(&node, &reply) || reply.id != 1 || !made_room(&reply, 0, 0)) return 63;
    if (dn_node_incoming(&node, &reply) || reply.id != 2 || !made_room(&reply, DN_WHY_GAVE_UP, 1)) return 64;
    if (dn_node_incoming(&node, &reply) || reply.id != 3 || !made_room(&reply, DN_WHY_GAVE_UP, 2)) return 65;
    if (dn_node_dial(&node, TEXT("c@127.0.0.1"), 1, &reply) != DN_FULL || !made_room(&reply, DN_WHY_GAVE_UP, 3)) return 66;
    if (dn_node_dial(&node, TEXT("c@127.0.0.1"), 1, &reply) || reply.id != 4) return 67;
    if (!made_room(&reply, DN_WHY_GAVE_UP, 0)) return 67;
    if (dn_node_incoming(&node, &reply) != DN_SPENT || !made_room(&reply, 0, 0)) return 68;
    if (dn_node_oldest(&node, &oldest) || oldest != 4 || dn_node_lost(&node, 4, DN_WHY_ENDED, &reply)) return 69;
    if (dn_node_oldest(&node, &oldest) != DN_NO_SUCH || dn_node_incoming(&node, &reply) != DN_SPENT) return 70;
    return dn_node_free(&node);
}

static int ends_at_limits(void) {
    const dn_setup of_steps = {.creation = 5, .most_steps = 5, .most_entries = 1, .most_open_ends = 2};
    const dn_setup of_ends = {.creation = 5, .most_ends = 5, .most_entries = 1, .most_open_ends = 2};
    int failed = ends_at_its_limits(&of_steps);
    return failed ? failed : ends_at_its_limits(&of_ends);
}

/* The bytes of examples/accepted_handshake.script: the name of a@127.0.0.1, and its reply to the challenge 123456789. */
#define NAME "\0\x1aN\0\0\0\x04\x01\0\0\x04\0\0\0\x05\0\x0b" "a@127.0.0.1"
#define ANSWER "\0\x15r\x07\x5b\xcd\x15\xd1\x74\xab\x98\xd2\x77\xd9\xf5\xa5\x61\x1c\x2c\x9f\x41\x9d\x9f"
#define PEER TEXT("a@127.0.0.1")
static const uint8_t *const name_came = (const uint8_t *)NAME, *const answer_came = (const uint8_t *)ANSWER;
enum { name_len = sizeof NAME - 1, answer_len = sizeof ANSWER - 1, challenge = 123456789 };

#define OF_B TEXT("ABCDEFGHIJKLMNOPQRSTUVWXYZabcdefghijklmnopqrstuvwxyz0")

static uint32_t new_b(dn_node *node, uint32_t most_open_ends) {
    dn_setup setup = {.flags = 0x101000104, .creation = 6, .most_open_ends = most_open_ends};
    return dn_node_new(node, TEXT("b@127.0.0.1"), OF_B, &setup);
}

/* The newest step said this status and heard that one. */
static int statuses_are(dn_node *node, uint32_t said, uint32_t heard) {
    uint32_t is_said = 9, is_heard = 9;
    return !dn_node_status(node, &is_said, &is_heard) && is_said == said && is_heard == heard;
}

/* The ends that hold a@127.0.0.1. */
static int entry_is(dn_node *node, uint32_t state, uint32_t up, uint32_t pending) {
    dn_entry entry = {9, 9, 9};
    return !dn_node_entry(node, PEER, &entry) && entry.state == state && entry.up == up && entry.pending == pending;
}

/* An end is in this phase, or closed for this cause, and its peer is a@127.0.0.1 or not known. */
static int end_is(dn_node *node, uint32_t id, uint32_t phase, uint32_t why, int is_known) {
    dn_end end = {9, 99, 99};
    uint8_t name[255];
    uint32_t code = dn_node_end(node, id, &end, name, sizeof name);
    return !code && end.phase == phase && end.why == why && (is_known ? end.peer == 11 && IS(name, "a@127.0.0.1") : !end.peer);
}

/* A name comes without its length, and the status and the challenge are said without theirs. */
static int hears_a_name(dn_node *node, uint32_t id) {
    dn_reply reply = {0};
    uint8_t room[64];
    size_t len = 9;
    if (dn_node_incoming(node, &reply) || reply.id != id || !end_is(node, id, DN_PHASE_NAME, 0, 0)) return 71;
    if (dn_node_say_body(node, 0, room, sizeof room, &len) != DN_NO_SUCH || len != 9) return 72;
    if (dn_node_ready_body(node, id, name_came + 2, name_len - 2, challenge, &reply) || reply.say != 37) return 73;
    if (dn_node_say(node, room, sizeof room, &len) || len != 0) return 74;
    if (dn_node_body(node, id, name_came + 2, name_len - 2, challenge, &reply)) return 75;
    if (reply.taken != 26 || reply.say != 37) return 75;
    if (dn_node_say_body(node, 0, room, 2, &len) != DN_NO_ROOM || len != 3) return 76;
    if (dn_node_say_body(node, 0, room, sizeof room, &len) || len != 3 || !IS(room, "sok")) return 77;
    if (dn_node_say_body(node, 1, room, sizeof room, &len) || len != 30) return 78;
    if (!IS(room, "N\0\0\0\x01\x01\0\x01\x04\x07\x5b\xcd\x15")) return 78;
    if (dn_node_say_body(node, 2, room, sizeof room, &len) != DN_NO_SUCH) return 79;
    if (!statuses_are(node, DN_STATUS_OK, DN_STATUS_NONE) || !entry_is(node, DN_STATE_IN, 0, id)) return 80;
    if (!end_is(node, id, DN_PHASE_REPLY, 0, 1)) return 80;
    return 0;
}

/* The reply would bring the end up: nothing is done and nothing said before it is admitted. */
static int foresees_that_it_is_up(dn_node *node, uint32_t id) {
    dn_reply reply = {0};
    size_t len = 0;
    uint8_t room[64];
    if (dn_node_ready(node, id, answer_came, answer_len - 1, 0, &reply) != DN_AWAITS) return 81;
    if (dn_node_ready(node, id, answer_came, answer_len, 0, &reply) || reply.up != 1) return 82;
    if (reply.taken != 23 || reply.say != 19) return 82;
    if (dn_node_say(node, room, sizeof room, &len) || len != 37 || !entry_is(node, DN_STATE_IN, 0, id)) return 83;
    return 0;
}

/* The reply would close the end that is up: it is held until that one is lost. */
static int holds_a_frame(dn_node *node, uint32_t id, uint32_t up) {
    dn_reply reply = {0};
    static const uint8_t long_body[65536] = "r";
    if (dn_node_guarded_body(node, id, long_body, sizeof long_body, 0, &reply) != DN_TOO_LONG || reply.closed) return 180;
    if (dn_node_guarded_body(node, id, answer_came + 2, answer_len - 2, 0, &reply) != DN_SHOWN_END) return 181;
    if (!made_room(&reply, DN_WHY_REPLACED, up) || !entry_is(node, DN_STATE_CHALLENGED, up, id)) return 182;
    if (dn_node_lost(node, up, DN_WHY_ENDED, &reply) || !entry_is(node, DN_STATE_IN, 0, id)) return 183;
    if (dn_node_guarded_body(node, id, answer_came + 2, answer_len - 2, 0, &reply) || reply.up != 1 || reply.closed) return 184;
    if (reply.taken != answer_len - 2 || !entry_is(node, DN_STATE_UP, id, 0)) return 185;
    return 0;
}

static int admits(void) {
    dn_node node = DN_NODE_INIT;
    dn_reply reply = {0};
    dn_entry entry = {0};
    static const uint8_t long_body[65536] = "N";
    if (dn_node_entry(&node, PEER, &entry) != DN_NOT_A_NODE) return 84;
    if (dn_node_status(&node, &reply.up, &reply.id) != DN_NOT_A_NODE) return 84;
    if (new_b(&node, 0) || !statuses_are(&node, DN_STATUS_NONE, DN_STATUS_NONE)) return 85;
    if (!entry_is(&node, DN_STATE_IDLE, 0, 0)) return 85;
    if (dn_node_entry(&node, TEXT("a"), &entry) != DN_NAME_TOO_SHORT) return 86;
    int failed = hears_a_name(&node, 0);
    if (!failed) failed = foresees_that_it_is_up(&node, 0);
    if (failed) return failed;
    if (dn_node_lost(&node, 0, DN_WHY_GAVE_UP, &reply) || reply.say || !entry_is(&node, DN_STATE_IDLE, 0, 0)) return 87;
    failed = hears_a_name(&node, 1);
    if (!failed) failed = foresees_that_it_is_up(&node, 1);
    if (failed) return failed;
    if (dn_node_received(&node, 1, answer_came, answer_len, 0, &reply) || reply.up != 1) return 88;
    if (!entry_is(&node, DN_STATE_UP, 1, 0)) return 88;
    if (dn_node_body(&node, 1, long_body, sizeof long_body, 0, &reply) != DN_TOO_LONG) return 89;
    if (dn_node_ready_body(&node, 1, long_body, sizeof long_body, 0, &reply) != DN_TOO_LONG) return 90;
    if (dn_node_body(&node, 1, long_body, sizeof long_body - 1, 0, &reply) != DN_WRONG_PHASE) return 91;
    if (dn_node_incoming(&node, &reply) || dn_node_received(&node, 2, name_came, name_len, challenge, &reply)) return 92;
    if (!statuses_are(&node, DN_STATUS_ALIVE, DN_STATUS_NONE) || !entry_is(&node, DN_STATE_CHALLENGED, 1, 2)) return 93;
    if (dn_node_body(&node, 2, TEXT("strue"), challenge, &reply) || !statuses_are(&node, DN_STATUS_NONE, DN_STATUS_TRUE)) return 94;
    failed = holds_a_frame(&node, 2, 1);
    if (failed) return failed;
    if (dn_node_free(&node)) return 95;
    return 0;
}

/* The one end that may be open is given up for the next, until it is up. Causes are forgotten; without open ends the node begins anew. */
static int keeps_who_is_up(void) {
    dn_node node = DN_NODE_INIT;
    dn_reply reply = {0};
    dn_end end = {0};
    uint32_t oldest = 9;
    uint8_t name[10];
    if (dn_node_oldest(&node, &oldest) != DN_NOT_A_NODE || dn_node_forget(&node, 9) != DN_NOT_A_NODE) return 101;
    if (dn_node_end(&node, 0, &end, name, sizeof name) != DN_NOT_A_NODE || new_b(&node, 1)) return 102;
    if (dn_node_incoming(&node, &reply) || !end_is(&node, 1, DN_PHASE_NONE, 0, 0)) return 103;
    int failed = hears_a_name(&node, 1);
    if (failed) return failed;
    if (!end_is(&node, 0, DN_PHASE_CLOSED, DN_WHY_GAVE_UP, 0) || dn_node_oldest(&node, &oldest) || oldest != 1) return 104;
    if (dn_node_end(&node, 1, &end, name, sizeof name) != DN_NO_ROOM) return 105;
    if (end.peer != 11 || end.phase != DN_PHASE_REPLY) return 105;
    if (dn_node_received(&node, 1, answer_came, answer_len, 0, &reply) || reply.up != 1) return 106;
    if (!end_is(&node, 1, DN_PHASE_UP, 0, 1) || dn_node_oldest(&node, &oldest) != DN_NO_SUCH) return 107;
    if (dn_node_incoming(&node, &reply) != DN_FULL || !made_room(&reply, 0, 0)) return 108;
    if (dn_node_dial(&node, TEXT("c@127.0.0.1"), 1, &reply) != DN_FULL || !made_room(&reply, 0, 0)) return 109;
    if (dn_node_forget(&node, 2) || !end_is(&node, 0, DN_PHASE_CLOSED, DN_WHY_ENDED, 0)) return 110;
    if (!end_is(&node, 1, DN_PHASE_UP, 0, 1) || dn_node_lost(&node, 0, DN_WHY_ENDED, &reply) != DN_GONE) return 111;
    if (dn_node_renew(&node) != DN_OPEN_ENDS || !end_is(&node, 1, DN_PHASE_UP, 0, 1)) return 112;
    if (dn_node_lost(&node, 1, DN_WHY_READ_FAILED, &reply) || dn_node_forget(&node, 1)) return 112;
    if (!end_is(&node, 1, DN_PHASE_CLOSED, DN_WHY_READ_FAILED, 0)) return 113;
    if (dn_node_renew(&node) || !end_is(&node, 0, DN_PHASE_NONE, 0, 0)) return 114;
    if (dn_node_incoming(&node, &reply) || reply.id != 0 || dn_node_free(&node)) return 115;
    return dn_node_renew(&node) == DN_NOT_A_NODE ? 0 : 116;
}

/* A peer says why it says no, and one says what is no status of its side. */
static int is_refused(const uint8_t *status, size_t len, uint32_t heard, uint32_t closed) {
    dn_node node = DN_NODE_INIT;
    dn_reply reply = {0};
    if (new_b(&node, 0) || dn_node_dial(&node, PEER, 1, &reply) || !entry_is(&node, DN_STATE_OUT, 0, 0)) return 96;
    if (!end_is(&node, 0, DN_PHASE_CONNECTION, 0, 1) || dn_node_opened(&node, 0, &reply)) return 97;
    if (!end_is(&node, 0, DN_PHASE_STATUS, 0, 1) || !statuses_are(&node, DN_STATUS_NONE, DN_STATUS_NONE)) return 97;
    if (dn_node_body(&node, 0, status, len, 1, &reply) || reply.closed != closed || reply.closed_id != 0) return 98;
    if (!statuses_are(&node, DN_STATUS_NONE, heard) || dn_node_free(&node)) return 99;
    return 0;
}

static int is_refused_by(void) {
    int failed = is_refused(TEXT("snok"), DN_STATUS_NOK, DN_WHY_STATUS_REFUSED);
    if (!failed) failed = is_refused(TEXT("snot_allowed"), DN_STATUS_NOT_ALLOWED, DN_WHY_STATUS_REFUSED);
    if (!failed) failed = is_refused(TEXT("strue"), DN_STATUS_TRUE, DN_WHY_MALFORMED);
    if (!failed) failed = is_refused(TEXT("sno"), DN_STATUS_NONE, DN_WHY_MALFORMED);
    return failed;
}

/* Cookies and the peers that may connect change between steps, but for the cookie of a peer that is up: a handshake that began under
 * the old cookie comes up under the new one or not at all. */
static int changes(void) {
    dn_node node = DN_NODE_INIT;
    dn_reply reply = {0};
    if (dn_node_disallow(&node, PEER) != DN_NOT_A_NODE) return 121;
    if (dn_node_usual_cookie(&node, TEXT("other")) != DN_NOT_A_NODE || new_b(&node, 0)) return 122;
    if (dn_node_no_cookie(&node, PEER) || dn_node_no_cookie(&node, TEXT("a")) != DN_NAME_TOO_SHORT) return 122;
    if (dn_node_disallow(&node, PEER) || hears_a_name(&node, 0)) return 123;
    if (dn_node_usual_cookie(&node, TEXT("other")) || dn_node_usual_cookie(&node, TEXT("")) != DN_COOKIE_EMPTY) return 124;
    if (dn_node_received(&node, 0, answer_came, answer_len, 0, &reply) || reply.closed != DN_WHY_WRONG_DIGEST) return 125;
    if (dn_node_cookie(&node, PEER, OF_B) || hears_a_name(&node, 1)) return 126;
    if (!statuses_are(&node, DN_STATUS_OK, DN_STATUS_NONE)) return 126;
    if (dn_node_received(&node, 1, answer_came, answer_len, 0, &reply) || reply.up != 1) return 127;
    if (dn_node_cookie(&node, PEER, TEXT("other")) != DN_PEER_IN_USE || dn_node_cookie(&node, PEER, OF_B)) return 128;
    if (dn_node_no_cookie(&node, PEER) != DN_PEER_IN_USE || dn_node_usual_cookie(&node, TEXT("usual"))) return 128;
    if (dn_node_lost(&node, 1, DN_WHY_ENDED, &reply) || dn_node_no_cookie(&node, PEER) || dn_node_usual_cookie(&node, OF_B)) return 129;
    if (hears_a_name(&node, 2) || dn_node_received(&node, 2, answer_came, answer_len, 0, &reply) || reply.up != 1) return 129;
    if (dn_node_usual_cookie(&node, TEXT("other")) != DN_PEER_IN_USE || dn_node_lost(&node, 2, DN_WHY_ENDED, &reply)) return 130;
    if (dn_node_allow(&node, TEXT("c@127.0.0.1")) || dn_node_incoming(&node, &reply)) return 131;
    if (dn_node_received(&node, 3, name_came, name_len, 1, &reply) || reply.closed != DN_WHY_REFUSED) return 131;
    if (!statuses_are(&node, DN_STATUS_NOT_ALLOWED, DN_STATUS_NONE)) return 131;
    if (dn_node_allow(&node, PEER) || dn_node_disallow(&node, TEXT("c@127.0.0.1")) || hears_a_name(&node, 4)) return 132;
    if (dn_node_disallow(&node, TEXT("@")) != DN_NAME_TOO_SHORT || dn_node_free(&node)) return 133;
    return 0;
}

/* A node to which DFLAG_MANDATORY_25_DIGEST stands for these flags, which asks for one of them. */
static uint32_t new_reader(dn_node *node, uint64_t mandatory) {
    dn_setup setup = {.flags = 0x101000104, .required = 4, .creation = 6, .mandatory_25 = mandatory};
    return dn_node_new(node, TEXT("b@127.0.0.1"), OF_B, &setup);
}

/* A setup that announces the digest without the flags that it stands for makes no node, whatever the digest stands for to itself:
 * not one that announces it alone, nor one that lacks one of them, nor one of version 5, which cannot announce HANDSHAKE_23. Nor
 * does one to which it stands for other flags. */
static int is_whole(void) {
    static const dn_setup half[] = {
        {.flags = 0x4000000, .mandatory_25 = DN_MANDATORY_25}, {.flags = 0x4000000},
        {.flags = 0x5070f90}, {.flags = 0x5070f94, .version = 5}, {.flags = 0x5070f94, .mandatory_25 = 0x20000},
    };
    static const dn_setup whole[] = {{.flags = 0x5070f94}, {.flags = 0x4070f94, .mandatory_25 = DN_MANDATORY_25}, {.flags = 0x1070f90}};
    dn_node node = DN_NODE_INIT;
    for (size_t i = 0; i < sizeof half / sizeof *half; i++)
        if (dn_node_new(&node, TEXT("b@127.0.0.1"), TEXT("S"), &half[i]) != DN_HALF_FLAGS) return 0;
    for (size_t i = 0; i < sizeof whole / sizeof *whole; i++)
        if (dn_node_new(&node, TEXT("b@127.0.0.1"), TEXT("S"), &whole[i]) || dn_node_free(&node)) return 0;
    return 1;
}

/* Names and a challenge of a@127.0.0.1 whose flags are the digest alone: newer, older, and with a challenge of 9. */
#define NEW_DIGEST TEXT("N\0\0\0\0\x04\0\0\0\0\0\0\x05\0\x0b" "a@127.0.0.1")
#define OLD_DIGEST TEXT("n\0\x05\x04\0\0\0" "a@127.0.0.1")
#define DIGEST_ASKED TEXT("N\0\0\0\0\x04\0\0\0\0\0\0\x09\0\0\0\x05\0\x0b" "a@127.0.0.1")

/* A name is taken, and the end then awaits this. */
static int is_read(dn_node *node, uint32_t id, const uint8_t *body, size_t len, uint32_t phase) {
    dn_reply reply = {0};
    if (dn_node_incoming(node, &reply) || reply.id != id) return 0;
    if (dn_node_body(node, id, body, len, challenge, &reply) || reply.closed || reply.taken != len) return 0;
    return statuses_are(node, DN_STATUS_OK, DN_STATUS_NONE) && end_is(node, id, phase, 0, 1);
}

/* The digest stands for the flags of OTP 25, or for itself alone. */
static int reads_the_digest(void) {
    dn_node node = DN_NODE_INIT;
    dn_reply reply = {0};
    if (!is_whole()) return 140;
    if (new_reader(&node, DN_MANDATORY_25) || !is_read(&node, 0, NEW_DIGEST, DN_PHASE_REPLY)) return 141;
    if (dn_node_received(&node, 0, answer_came, answer_len, 0, &reply) || !reply.up || reply.common != 0x1000104) return 142;
    if (dn_node_lost(&node, 0, DN_WHY_ENDED, &reply)) return 143;
    if (!is_read(&node, 1, OLD_DIGEST, DN_PHASE_COMPLEMENT) || dn_node_lost(&node, 1, DN_WHY_ENDED, &reply)) return 144;
    if (dn_node_dial(&node, PEER, 1, &reply) || dn_node_opened(&node, 2, &reply)) return 145;
    if (dn_node_body(&node, 2, TEXT("sok"), 1, &reply) || dn_node_body(&node, 2, DIGEST_ASKED, 1, &reply)) return 146;
    if (!end_is(&node, 2, DN_PHASE_ACK, 0, 1) || dn_node_free(&node)) return 147;
    if (new_reader(&node, 0) || dn_node_incoming(&node, &reply)) return 148;
    if (dn_node_body(&node, 0, NEW_DIGEST, 1, &reply) || reply.closed != DN_WHY_REFUSED) return 149;
    return dn_node_free(&node);
}

/* The name of a@127.0.0.1 comes, and is refused. */
static int is_kept_out(dn_node *node, uint32_t id) {
    dn_reply reply = {0};
    if (dn_node_incoming(node, &reply) || reply.id != id) return 0;
    return !dn_node_received(node, id, name_came, name_len, 1, &reply) && reply.closed == DN_WHY_REFUSED;
}

/* A host lets in all its nodes, and a name before the @ that node at any host, as long as they are kept. */
static int allows_forms(void) {
    dn_node node = DN_NODE_INIT;
    dn_reply reply = {0};
    if (new_b(&node, 0) || dn_node_allow(&node, TEXT("")) != DN_NAME_TOO_SHORT) return 151;
    if (dn_node_allow(&node, TEXT("@")) != DN_NAME_TOO_SHORT) return 152;
    if (dn_node_allow(&node, TEXT("a b")) != DN_NAME_BAD_BYTE) return 152;
    if (dn_node_allow(&node, TEXT("@127.0.0.1")) != DN_NAME_BAD_AT || dn_node_allow(&node, TEXT("127.0.0.2"))) return 153;
    if (!is_kept_out(&node, 0) || dn_node_allow(&node, TEXT("127.0.0.1"))) return 154;
    if (hears_a_name(&node, 1) || dn_node_lost(&node, 1, DN_WHY_ENDED, &reply)) return 155;
    if (dn_node_disallow(&node, TEXT("127.0.0.1")) || !is_kept_out(&node, 2) || dn_node_allow(&node, TEXT("b@"))) return 156;
    if (!is_kept_out(&node, 3) || dn_node_allow(&node, TEXT("a@")) || hears_a_name(&node, 4)) return 157;
    if (dn_node_lost(&node, 4, DN_WHY_ENDED, &reply) || dn_node_renew(&node) || hears_a_name(&node, 0)) return 158;
    return dn_node_free(&node);
}

static int words(void) {
    uint8_t word[16];
    size_t len = 0;
    if (dn_code_name(DN_AWAITS, word, sizeof word, &len) || len != 6 || !IS(word, "Awaits")) return 21;
    if (dn_why_name(DN_WHY_CROSSED, word, sizeof word, &len) || len != 7 || !IS(word, "Crossed")) return 22;
    if (dn_why_name(0, word, sizeof word, &len) != DN_NO_SUCH) return 23;
    return 0;
}

static int forgets(void) {
    dn_registry registry = DN_REGISTRY_INIT;
    dn_served served = {0, 9};
    uint8_t answer[16];
    size_t len = 0;
    if (dn_registry_closed(&registry, 7) != DN_NOT_A_NODE) return 31;
    if (dn_registry_new(&registry, 4369, 5) || dn_registry_new(&registry, 4369, 5) != DN_IN_USE) return 32;
    const uint8_t came[] = "\0\x0fx\x12\x34M\0\0\x06\0\x05\0\x02" "ab\0";
    if (dn_registry_asked(&registry, 7, came, 16, &served) != DN_AWAITS) return 33;
    if (dn_registry_asked(&registry, 7, came, 17, &served) || served.taken != 17 || served.registered != 1) return 34;
    if (dn_registry_say(&registry, answer, sizeof answer, &len) || len != 6 || !IS(answer, "v\0\0\0\0\x05")) return 35;
    if (dn_registry_asked(&registry, 8, TEXT("\0\x01\xff"), &served) != DN_EPMD_MALFORMED) return 36;
    if (dn_registry_closed(&registry, 7)) return 37;
    if (dn_registry_asked(&registry, 8, TEXT("\0\x03zab"), &served) || served.taken != 5 || served.registered != 0) return 38;
    if (dn_registry_say(&registry, answer, sizeof answer, &len) || len != 2 || !IS(answer, "w\x01")) return 39;
    if (dn_registry_free(&registry) || dn_registry_free(&registry) != DN_NOT_A_NODE) return 40;
    return 0;
}

int main(void) {
    int (*const all[])(void) = {digests, registers, asks,   words,           forgets,
                                dials,   ends_at_limits, admits, keeps_who_is_up, is_refused_by, changes,
                                reads_the_digest, allows_forms};
    for (size_t i = 0; i < sizeof all / sizeof *all; i++) {
        int failed = all[i]();
        if (failed) return failed;
    }
    return 0;
}
