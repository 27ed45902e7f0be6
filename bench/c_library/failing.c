/* Two nodes join, and a registry serves, while each request for memory is refused in turn, alone and from there on: a call that
 * answers DN_NO_MEMORY changed nothing, and does its work when it is made again. Build with -Wl,--wrap=malloc,--wrap=realloc.
 * Prints how many requests failed. */
#include <distnode.h>
#include <stdio.h>
#include <stdlib.h>
#include <string.h>
#define TEXT(s) (const uint8_t *)(s), sizeof(s) - 1
void *__real_malloc(size_t);
void *__real_realloc(void *, size_t);
/* the request that is refused, and whether those behind it are; 0 where none is */
static struct plan { long at; int on; } now;
static long asked;
static int refused(void) {
    long n = ++asked;
    return now.at && (n == now.at || (now.on && n > now.at));
}
void *__wrap_malloc(size_t n) { return refused() ? NULL : __real_malloc(n); }
void *__wrap_realloc(void *p, size_t n) { return refused() ? NULL : __real_realloc(p, n); }

static long lacked;
/* makes a call; where memory is wanted it is made again once there is some */
#define CALL(e) (code = (e), code == DN_NO_MEMORY ? (lacked++, now.at = 0, code = (e)) : code)

/* From here on there is no memory. */
static struct plan without_memory(void) {
    struct plan kept = now;
    now = (struct plan){asked + 1, 1};
    return kept;
}

static size_t play(uint8_t *out) {
    dn_node a = DN_NODE_INIT, b = DN_NODE_INIT;
    dn_setup setup = {.flags = 0x403070f94, .creation = 6};
    dn_reply r;
    uint8_t to_b[1024], to_a[1024];
    size_t nb = 0, na = 0, len, n = 0;
    uint32_t code, up = 0;
    if (CALL(dn_node_new(&a, TEXT("a@127.0.0.1"), TEXT("not this one"), &setup))) return 0;
    if (CALL(dn_node_new(&b, TEXT("b@127.0.0.1"), TEXT("secretCookie"), &setup))) return 0;
    if (CALL(dn_node_cookie(&a, TEXT("b@127.0.0.1"), TEXT("secretCookie")))) return 0;
    if (CALL(dn_node_cookie(&a, TEXT("c@127.0.0.1"), TEXT("another")))) return 0;
    if (CALL(dn_node_allow(&b, TEXT("c@127.0.0.1")))) return 0;
    if (CALL(dn_node_allow(&b, TEXT("a@127.0.0.1")))) return 0;
    if (CALL(dn_node_dial(&a, TEXT("b@127.0.0.1"), 1, &r))) return 0;
    if (CALL(dn_node_incoming(&b, &r))) return 0;
    if (CALL(dn_node_opened(&a, 0, &r))) return 0;
    if (dn_node_say(&a, to_b, sizeof to_b, &nb)) return 0;
    while (up < 2) {
        while (nb) {
            if (CALL(dn_node_received(&b, 0, to_b, nb, 1234567u, &r))) return 0;
            up += r.up;
            memmove(to_b, to_b + r.taken, nb -= r.taken);
            if (dn_node_say(&b, to_a + na, sizeof to_a - na, &len)) return 0;
            memcpy(out + n, to_a + na, len), n += len, na += len;
        }
        while (na) {
            if (CALL(dn_node_received(&a, 0, to_a, na, 7654321u, &r))) return 0;
            up += r.up;
            memmove(to_a, to_a + r.taken, na -= r.taken);
            if (dn_node_say(&a, to_b + nb, sizeof to_b - nb, &len)) return 0;
            memcpy(out + n, to_b + nb, len), n += len, nb += len;
        }
    }
    if (CALL(dn_node_tick(&a, 0, &r))) return 0;
    struct plan kept = without_memory(); /* a loss and letting go need none */
    if (dn_node_lost(&a, 0, DN_WHY_ENDED, &r) || dn_node_lost(&b, 0, DN_WHY_ENDED, &r)) return 0;
    if (dn_node_free(&a) || dn_node_free(&b)) return 0;
    now = kept;
    return n;
}

/* Requests to a registry, and the answers that the standard's layouts want (ERTS User's Guide, EPMD Protocol). */
static const struct {
    uint64_t connection;
    const char *request, *answer;
    size_t request_len, answer_len;
    uint32_t registered;
} rows[] = {
#define ROW(c, q, a, r) {c, q, a, sizeof(q) - 1, sizeof(a) - 1, r}
    ROW(7, "\0\x0fx\x12\x34M\0\0\x06\0\x05\0\x02" "ab\0\0", "v\0\0\0\0\x05", 1), /* registered */
    ROW(8, "\0\x0fx\x12\x35M\0\0\x06\0\x05\0\x02" "ab\0\0", "v\x01\0\0\0\0", 0), /* the name is taken */
    ROW(8, "\0\x0ex\x12\x35H\0\0\x05\0\x05\0\x01" "c\0\0", "y\0\0\x03", 1), /* a hidden node of version 5 */
    ROW(9, "\0\x03zab", "w\0\x12\x34M\0\0\x06\0\x05\0\x02" "ab\0\0", 0),
    ROW(9, "\0\x02zd", "w\x01", 0),
    ROW(9, "\0\x01n", "\0\0\x11\x11name ab at port 4660\nname c at port 4661\n", 0),
};

static size_t serve(uint8_t *out) {
    dn_registry m = DN_REGISTRY_INIT;
    dn_served s;
    size_t n = 0, len;
    uint32_t code;
    if (dn_registry_closed(&m, 1) != DN_NOT_A_NODE) return 0;
    if (CALL(dn_registry_new(&m, 4369, 5)) || dn_registry_new(&m, 4369, 5) != DN_IN_USE) return 0;
    if (dn_registry_say(&m, out, 0, &len) || len) return 0;
    for (size_t i = 0; i < sizeof rows / sizeof *rows; i++) {
        const uint8_t *asks = (const uint8_t *)rows[i].request;
        for (size_t k = 0; k < rows[i].request_len; k++)
            if (dn_registry_asked(&m, rows[i].connection, asks, k, &s) != DN_AWAITS) return 0;
        if (CALL(dn_registry_asked(&m, rows[i].connection, asks, rows[i].request_len, &s))) return 0;
        if (s.taken != rows[i].request_len || s.registered != rows[i].registered) return 0;
        if (CALL(dn_registry_say(&m, out + n, rows[i].answer_len - 1, &len)) != DN_NO_ROOM || len != rows[i].answer_len) return 0;
        if (CALL(dn_registry_say(&m, out + n, len, &len)) || memcmp(out + n, rows[i].answer, len)) return 0;
        n += len;
    }
    if (dn_registry_asked(&m, 9, TEXT("\0\x01\xff"), &s) != DN_EPMD_MALFORMED) return 0;
    struct plan kept = without_memory(); /* a connection that closes needs none, nor does letting go */
    if (dn_registry_closed(&m, 7) || dn_registry_free(&m) || dn_registry_free(&m) != DN_NOT_A_NODE) return 0;
    now = kept;
    return n;
}

/* Both, one behind the other, and how many bytes they say. */
static size_t both(uint8_t *out) {
    size_t n = play(out), m = n ? serve(out + n) : 0;
    return m ? n + m : 0;
}

int main(void) {
    static uint8_t want[4096], got[4096];
    size_t n = both(want);
    if (!n) { printf("another answer\n"); return 1; }
    long all = asked;
    for (int on = 0; on < 2; on++)
        for (long k = 1; k <= all; k++) {
            asked = 0, now = (struct plan){k, on};
            if (both(got) != n || memcmp(got, want, n)) { printf("request %ld refused: another answer\n", k); return 1; }
        }
    printf("%ld requests for memory, each refused alone and from there on: %ld calls answered NO_MEMORY and were made again; the same %zu bytes said\n", all, lacked, n);
    return 0;
}
