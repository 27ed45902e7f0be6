/* The processor time of handshakes, both sides in one process: without sockets, and over loopback connections with a thread for
 * each side, by the library and, where this is built with WITH_EI, by Erlang's own library for C, in rounds that take turns.
 * usage: timed NUMBER */
#define _POSIX_C_SOURCE 200809L
#include <distnode.h>

#include <arpa/inet.h>
#include <pthread.h>
#include <stdio.h>
#include <stdlib.h>
#include <string.h>
#include <sys/random.h>
#include <sys/socket.h>
#include <time.h>
#include <unistd.h>
#ifdef WITH_EI
#include <ei.h>
#endif

#define TEXT(s) (const uint8_t *)(s), sizeof(s) - 1
#define NEED(c) need((c), __LINE__)
enum { ROUNDS = 9 };

static const dn_setup setup = {.flags = 0x403070f94, .creation = 6};
static int number, listener;
static struct sockaddr_in at;

static void need(uint32_t code, int line) {
    if (code) { fprintf(stderr, "code %u at line %d\n", code, line); exit(1); }
}

static double used(void) {
    struct timespec t;
    clock_gettime(CLOCK_PROCESS_CPUTIME_ID, &t);
    return (double)t.tv_sec + (double)t.tv_nsec * 1e-9;
}

static void renew(dn_node *node, const uint8_t *name, size_t n, int i) {
    if (i % 1000) return;
    if (i) NEED(dn_node_free(node));
    NEED(dn_node_new(node, name, n, TEXT("secretCookie"), &setup));
}

static unsigned long by_library(void) {
    dn_node a = DN_NODE_INIT, b = DN_NODE_INIT;
    unsigned long calls = 0;
    for (int i = 0; i < number; i++) {
        renew(&a, TEXT("a@127.0.0.1"), i), renew(&b, TEXT("b@127.0.0.1"), i);
        dn_reply r;
        uint8_t to_b[1024], to_a[1024];
        size_t nb = 0, na = 0, len;
        NEED(dn_node_dial(&a, TEXT("b@127.0.0.1"), 1, &r));
        uint32_t x = r.id, up = 0;
        NEED(dn_node_incoming(&b, &r));
        uint32_t y = r.id;
        NEED(dn_node_opened(&a, x, &r));
        NEED(dn_node_say(&a, to_b, sizeof to_b, &nb));
        calls += 4;
        while (up < 2) {
            while (nb) {
                NEED(dn_node_received(&b, y, to_b, nb, 1234567u + (uint32_t)i, &r));
                up += r.up, calls += 2;
                memmove(to_b, to_b + r.taken, nb -= r.taken);
                NEED(dn_node_say(&b, to_a + na, sizeof to_a - na, &len));
                na += len;
            }
            while (na) {
                NEED(dn_node_received(&a, x, to_a, na, 7654321u + (uint32_t)i, &r));
                up += r.up, calls += 2;
                memmove(to_a, to_a + r.taken, na -= r.taken);
                NEED(dn_node_say(&a, to_b + nb, sizeof to_b - nb, &len));
                nb += len;
            }
        }
        NEED(dn_node_lost(&a, x, DN_WHY_ENDED, &r));
        NEED(dn_node_lost(&b, y, DN_WHY_ENDED, &r));
        calls += 2;
    }
    NEED(dn_node_free(&a)), NEED(dn_node_free(&b));
    return calls;
}

/* One end of a connection, until it is up; then the connection is closed. */
static void carry(dn_node *node, uint32_t end, int fd, dn_reply *r) {
    uint8_t held[1024], say[1024];
    size_t n = 0, len;
    uint32_t code = DN_AWAITS, up = 0;
    for (;;) {
        if (r->say) {
            NEED(dn_node_say(node, say, sizeof say, &len));
            if (send(fd, say, len, MSG_NOSIGNAL) != (ssize_t)len) exit(1);
        }
        if (up) break;
        uint32_t challenge;
        while (getrandom(&challenge, sizeof challenge, 0) != sizeof challenge) {}
        while ((code = dn_node_received(node, end, held, n, challenge, r)) == DN_AWAITS) {
            ssize_t got = recv(fd, held + n, sizeof held - n, 0);
            if (got <= 0) exit(1);
            n += (size_t)got;
        }
        NEED(code);
        up = r->up;
        memmove(held, held + r->taken, n -= r->taken);
    }
    close(fd);
    NEED(dn_node_lost(node, end, DN_WHY_ENDED, r));
}

static void *accepts(void *unused) {
    dn_node b = DN_NODE_INIT;
    for (int i = 0; i < number; i++) {
        renew(&b, TEXT("b@127.0.0.1"), i);
        dn_reply r;
        int fd = accept(listener, NULL, NULL);
        NEED(dn_node_incoming(&b, &r));
        carry(&b, r.id, fd, &r);
    }
    NEED(dn_node_free(&b));
    return unused;
}

static void dials(void) {
    dn_node a = DN_NODE_INIT;
    for (int i = 0; i < number; i++) {
        renew(&a, TEXT("a@127.0.0.1"), i);
        dn_reply r;
        NEED(dn_node_dial(&a, TEXT("b@127.0.0.1"), 1, &r));
        uint32_t end = r.id;
        int fd = socket(AF_INET, SOCK_STREAM, 0);
        if (connect(fd, (struct sockaddr *)&at, sizeof at)) exit(1);
        NEED(dn_node_opened(&a, end, &r));
        carry(&a, end, fd, &r);
    }
    NEED(dn_node_free(&a));
}

#ifdef WITH_EI
static void *ei_accepts(void *unused) {
    ei_cnode b;
    ErlConnect peer;
    struct in_addr here = {htonl(INADDR_LOOPBACK)};
    if (ei_connect_xinit(&b, "127.0.0.1", "b", "b@127.0.0.1", &here, "secretCookie", 1)) exit(1);
    for (int i = 0; i < number; i++) {
        int fd = ei_accept(&b, listener, &peer);
        if (fd < 0) { fprintf(stderr, "ei_accept failed: %d\n", erl_errno); exit(1); }
        ei_close_connection(fd);
    }
    return unused;
}

static void ei_dials(void) {
    ei_cnode a;
    struct in_addr here = {htonl(INADDR_LOOPBACK)};
    if (ei_connect_xinit(&a, "127.0.0.1", "a", "a@127.0.0.1", &here, "secretCookie", 1)) exit(1);
    for (int i = 0; i < number; i++) {
        int fd = ei_xconnect_host_port(&a, &here, ntohs(at.sin_port));
        if (fd < 0) { fprintf(stderr, "ei_connect failed: %d\n", erl_errno); exit(1); }
        ei_close_connection(fd);
    }
}
#endif

static void listens(void) {
    socklen_t size = sizeof at;
    at.sin_family = AF_INET, at.sin_addr.s_addr = htonl(INADDR_LOOPBACK);
    listener = socket(AF_INET, SOCK_STREAM, 0);
    if (bind(listener, (struct sockaddr *)&at, size) || listen(listener, 64) || getsockname(listener, (struct sockaddr *)&at, &size)) exit(1);
}

static void by_sockets(void) {
    pthread_t other;
    pthread_create(&other, NULL, accepts, NULL), dials(), pthread_join(other, NULL);
}

#ifdef WITH_EI
static void by_ei(void) {
    pthread_t other;
    pthread_create(&other, NULL, ei_accepts, NULL), ei_dials(), pthread_join(other, NULL);
}
#endif

/* Microseconds of processor time of a handshake. */
static double each(void (*made)(void)) {
    double start = used();
    made();
    return (used() - start) / number * 1e6;
}

static int by_size(const void *a, const void *b) { return *(const double *)a < *(const double *)b ? -1 : 1; }

static void tell(const char *who, double *times) {
    qsort(times, ROUNDS, sizeof *times, by_size);
    printf("%s: %d rounds of %d handshakes over loopback connections, both sides: %.1f us of processor time each (median; %.1f to %.1f)\n",
           who, ROUNDS, number, times[ROUNDS / 2], times[0], times[ROUNDS - 1]);
}

int main(int argc, char **argv) {
    if (argc != 2) return 2;
    number = atoi(argv[1]);
    double start = used();
    unsigned long calls = by_library();
    double whole = used() - start;
    printf("library: %d handshakes without sockets, both sides: %.2f us of processor time each, %.0f ns a call\n", number, whole / number * 1e6, whole / (double)calls * 1e9);

    listens();
    number = number / 2 / ROUNDS;
    double ours[ROUNDS];
#ifdef WITH_EI
    double theirs[ROUNDS];
    ei_init();
#endif
    for (int i = 0; i < ROUNDS; i++) {
        ours[i] = each(by_sockets);
#ifdef WITH_EI
        theirs[i] = each(by_ei);
#endif
    }
    tell("library", ours);
#ifdef WITH_EI
    tell("ei", theirs);
    printf("the library takes %s\n", ours[ROUNDS / 2] <= theirs[ROUNDS / 2] ? "no more than ei" : "MORE THAN EI");
#endif
    return 0;
}
