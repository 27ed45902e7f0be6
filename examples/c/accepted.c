/* SPDX-License-Identifier: Apache-2.0 */
/* A handshake without sockets: the bytes of examples/accepted_handshake.script, given one by one. It prints what `distnode
 * enact` prints of that script, and exits with the number of the first check that fails, or 0. */
#include <distnode.h>

#include <stdio.h>
#include <string.h>

#define TEXT(s) (const uint8_t *)(s), sizeof(s) - 1

static const uint8_t name_came[] = {0x00, 0x1a, 0x4e, 0, 0, 0, 0x04, 0x01, 0, 0, 0x04, 0, 0, 0, 0x05, 0, 0x0b,
                                    'a', '@', '1', '2', '7', '.', '0', '.', '0', '.', '1'};
static const uint8_t reply_came[] = {0x00, 0x15, 0x72, 0x07, 0x5b, 0xcd, 0x15, 0xd1, 0x74, 0xab, 0x98, 0xd2,
                                     0x77, 0xd9, 0xf5, 0xa5, 0x61, 0x1c, 0x2c, 0x9f, 0x41, 0x9d, 0x9f};

static int step(dn_node *node, const uint8_t *bytes, size_t len, uint32_t challenge) {
    dn_reply reply = {0};
    /* all but the last byte: the frame has not come whole */
    for (size_t n = 0; n < len; n++)
        if (dn_node_received(node, 0, bytes, n, challenge, &reply) != DN_AWAITS) return 1;
    if (dn_node_received(node, 0, bytes, len, challenge, &reply) != DN_OK || reply.taken != len) return 1;
    uint8_t say[1024];
    size_t n;
    if (dn_node_say(node, say, sizeof say, &n) != DN_OK || n != reply.say) return 1;
    printf("end %u say ", reply.id);
    for (size_t i = 0; i < n; i++) printf("%02x", say[i]);
    printf("%s closed ", n ? "" : "-");
    if (reply.closed) printf("%u %u", reply.closed_id, reply.closed);
    else printf("-");
    printf(" up ");
    if (!reply.up) printf("-");
    else {
        dn_peer peer;
        uint8_t name[255];
        if (dn_node_peer_of(node, reply.id, &peer, name, sizeof name) != DN_OK) return 1;
        printf("%.*s %016llx %u", (int)peer.name, name, (unsigned long long)peer.common, peer.creation);
    }
    printf("\n");
    return 0;
}

int main(void) {
    dn_node node = DN_NODE_INIT;
    dn_reply reply = {0};
    dn_setup setup = {.flags = 0x101000104, .creation = 6};
    if (dn_node_incoming(&node, &reply) != DN_NOT_A_NODE) return 1;
    if (dn_node_new(&node, TEXT("b"), TEXT("c"), &setup) != DN_NAME_TOO_SHORT) return 2;
    if (dn_node_new(&node, TEXT("b@127.0.0.1"), TEXT("\n"), &setup) != DN_COOKIE_EMPTY) return 3;
    if (dn_node_new(&node, TEXT("b@127.0.0.1"), TEXT("ABCDEFGHIJKLMNOPQRSTUVWXYZabcdefghijklmnopqrstuvwxyz0"), &setup)) return 4;
    if (dn_node_new(&node, TEXT("b@127.0.0.1"), TEXT("c"), &setup) != DN_IN_USE) return 5;
    if (dn_node_tick(&node, 0, &reply) != DN_NO_SUCH_END) return 6;
    if (dn_node_incoming(&node, &reply) || reply.id != 0) return 7;
    printf("end 0 say - closed - up -\n");
    if (step(&node, name_came, sizeof name_came, 123456789)) return 8;
    if (dn_node_lost(&node, 0, 99, &reply) != DN_NO_SUCH) return 9;
    if (step(&node, reply_came, sizeof reply_came, 0)) return 10;
    dn_peer peer;
    uint8_t name[255];
    if (dn_node_peer_at(&node, 0, &peer, name, 3) != DN_NO_ROOM || peer.name != 11) return 11;
    for (size_t i = 0; dn_node_peer_at(&node, i, &peer, name, sizeof name) == DN_OK; i++)
        printf("%.*s up %u common %016llx creation %u\n", (int)peer.name, name, peer.id, (unsigned long long)peer.common, peer.creation);
    /* an end that is up takes no frame: what follows is the caller's */
    if (dn_node_received(&node, 0, name_came, sizeof name_came, 1, &reply) != DN_WRONG_PHASE) return 12;
    uint8_t say[4];
    size_t n;
    if (dn_node_tick(&node, 0, &reply) || dn_node_say(&node, say, 3, &n) != DN_NO_ROOM || n != 4) return 13;
    if (dn_node_say(&node, say, 4, &n) || memcmp(say, "\0\0\0\0", 4)) return 14;
    const uint8_t *before = (const uint8_t *)"a@1";
    if (dn_node_next_peer(&node, before, 3, &peer, name, sizeof name) || peer.name != 11 || peer.id != 0) return 18;
    if (dn_node_next_peer(&node, before, 0, &peer, name, sizeof name) || memcmp(name, "a@127.0.0.1", 11)) return 19;
    if (dn_node_next_peer(&node, (const uint8_t *)"a@127.0.0.1", 11, &peer, name, sizeof name) != DN_NO_SUCH) return 20;
    if (dn_node_next_peer(&node, before, 2, &peer, name, sizeof name) != DN_NAME_TOO_SHORT) return 21;
    if (dn_node_lost(&node, 0, DN_WHY_ENDED, &reply) || reply.closed != DN_WHY_ENDED) return 15;
    if (dn_node_tick(&node, 0, &reply) != DN_GONE) return 16;
    if (dn_node_free(&node) || dn_node_free(&node) != DN_NOT_A_NODE) return 17;
    return 0;
}
