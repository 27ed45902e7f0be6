/* A node that accepts, over the library for C, for strangers to be let loose at: it keeps no time limits, so that what it can stand
 * is what the library itself gives.
 * usage: node PORT COOKIE-FILE [MOST-OPEN-ENDS]
 *
 * It prints `ready`, a line when a peer comes up, and a line for each million connections that came: how long the library took for
 * one of them (incoming and lost, in nanoseconds, mean of that million), how many ends are open, and the resident memory. It ends
 * when its standard input ends. */
#define _GNU_SOURCE
#include <distnode.h>

#include <arpa/inet.h>
#include <errno.h>
#include <stdio.h>
#include <stdlib.h>
#include <string.h>
#include <sys/epoll.h>
#include <sys/random.h>
#include <sys/resource.h>
#include <sys/socket.h>
#include <time.h>
#include <unistd.h>

enum { PLACES = 1 << 17, HELD = 1100, SAY = 1024, FORGET = 1 << 16, MILLION = 1000000, STDIN = 0 };

/* A connection that carries one end of the node. Its frames are those of a handshake, so that few bytes are held. */
struct link {
    int fd;
    uint32_t end;
    struct link *next; /* of the same place in the table */
    size_t held;
    uint8_t *bytes;    /* none before the first byte came */
    int up;
};

static dn_setup setup = {.flags = 0xd07df7fbd, .creation = 1};
static dn_node node = DN_NODE_INIT;
static struct link *table[PLACES];
static int poller, listener;
static uint32_t open_links;
static uint64_t came, spent;

static void stop(const char *what) {
    perror(what);
    exit(1);
}

static uint64_t now(void) {
    struct timespec t;
    clock_gettime(CLOCK_MONOTONIC, &t);
    return (uint64_t)t.tv_sec * 1000000000u + (uint64_t)t.tv_nsec;
}

static long resident(void) {
    long size = 0, pages = 0;
    FILE *it = fopen("/proc/self/statm", "r");
    if (!it || fscanf(it, "%ld %ld", &size, &pages) != 2) stop("statm");
    fclose(it);
    return pages * (sysconf(_SC_PAGESIZE) / 1024);
}

static void let_go(uint32_t end) {
    for (struct link **at = &table[end % PLACES]; *at; at = &(*at)->next)
        if ((*at)->end == end) {
            struct link *it = *at;
            *at = it->next;
            close(it->fd), free(it->bytes), free(it), open_links--;
            return;
        }
}

static void lose(struct link *it, uint32_t why) {
    dn_reply reply;
    uint64_t from = now();
    dn_node_lost(&node, it->end, why, &reply);
    spent += now() - from;
    let_go(it->end);
}

/* No descriptor is left: the connection that has been open and not up for the longest makes place. */
static void make_place(void) {
    uint32_t oldest;
    dn_reply reply;
    if (dn_node_oldest(&node, &oldest)) return;
    dn_node_lost(&node, oldest, DN_WHY_GAVE_UP, &reply);
    let_go(oldest);
}

static void accept_all(void) {
    for (int fd; (fd = accept4(listener, NULL, NULL, SOCK_NONBLOCK)) >= 0;) {
        dn_reply reply;
        uint64_t from = now();
        uint32_t code = dn_node_incoming(&node, &reply);
        if (!code && reply.id % FORGET == 0) dn_node_forget(&node, reply.id);
        spent += now() - from;
        if (reply.closed) let_go(reply.closed_id);
        if (code) { close(fd); continue; }
        struct link *it = calloc(1, sizeof *it);
        if (!it) stop("memory");
        it->fd = fd, it->end = reply.id, it->next = table[it->end % PLACES], table[it->end % PLACES] = it, open_links++;
        struct epoll_event event = {.events = EPOLLIN, .data.ptr = it};
        if (epoll_ctl(poller, EPOLL_CTL_ADD, fd, &event)) stop("epoll");
        if (++came % MILLION == 0) {
            printf("%lu connections: %lu ns each, %u open, %ld KiB\n", (unsigned long)came, (unsigned long)(spent / MILLION), open_links, resident());
            fflush(stdout), spent = 0;
        }
    }
    if (errno == EMFILE) make_place();
    else if (errno != EAGAIN && errno != ECONNABORTED) stop("accept");
}

static int write_all(int fd, const uint8_t *bytes, size_t n) {
    return send(fd, bytes, n, MSG_NOSIGNAL) == (ssize_t)n ? 0 : -1;
}

/* Makes the step of each frame that is whole. 0: the link is gone. */
static int take(struct link *it) {
    while (!it->up) {
        dn_reply reply;
        uint32_t challenge;
        uint8_t say[SAY];
        size_t n = 0;
        if (getrandom(&challenge, sizeof challenge, 0) != sizeof challenge) stop("random");
        uint32_t code = dn_node_received(&node, it->end, it->bytes, it->held, challenge, &reply);
        if (code == DN_AWAITS) return 1;
        if (code) { lose(it, DN_WHY_GAVE_UP); return 0; }
        it->held -= reply.taken;
        memmove(it->bytes, it->bytes + reply.taken, it->held);
        dn_node_say(&node, say, sizeof say, &n);
        int failed = n && write_all(it->fd, say, n);
        if (reply.up) it->up = 1, printf("up %u\n", it->end), fflush(stdout);
        if (reply.closed) {
            let_go(reply.closed_id);
            if (reply.closed_id == reply.id) return 0;
        }
        if (failed) { lose(it, DN_WHY_WRITE_FAILED); return 0; }
    }
    it->held = 0; /* what the node's processes would receive */
    return 1;
}

static void hear(struct link *it) {
    uint8_t bytes[HELD];
    ssize_t n = recv(it->fd, bytes, HELD - it->held, 0);
    if (n < 0 && errno == EAGAIN) return;
    if (n <= 0) { lose(it, n ? DN_WHY_READ_FAILED : DN_WHY_ENDED); return; }
    if (!it->bytes && !(it->bytes = malloc(HELD))) stop("memory");
    memcpy(it->bytes + it->held, bytes, (size_t)n), it->held += (size_t)n;
    if (take(it) && it->held == HELD) lose(it, DN_WHY_GAVE_UP);
}

int main(int argc, char **argv) {
    if (argc < 3 || argc > 4) return 2;
    if (argc == 4) setup.most_open_ends = (uint32_t)atoi(argv[3]);
    uint8_t cookie[4097];
    FILE *file = fopen(argv[2], "r");
    if (!file) stop(argv[2]);
    size_t n = fread(cookie, 1, sizeof cookie, file);
    fclose(file);
    const char *name = "node@127.0.0.1";
    if (dn_node_new(&node, (const uint8_t *)name, strlen(name), cookie, n, &setup)) return 1;
    struct rlimit most;
    getrlimit(RLIMIT_NOFILE, &most), most.rlim_cur = most.rlim_max, setrlimit(RLIMIT_NOFILE, &most);
    struct sockaddr_in at = {.sin_family = AF_INET, .sin_port = htons((uint16_t)atoi(argv[1])), .sin_addr.s_addr = htonl(INADDR_LOOPBACK)};
    int yes = 1;
    listener = socket(AF_INET, SOCK_STREAM | SOCK_NONBLOCK, 0);
    setsockopt(listener, SOL_SOCKET, SO_REUSEADDR, &yes, sizeof yes);
    if (bind(listener, (struct sockaddr *)&at, sizeof at) || listen(listener, 4096)) stop("listen");
    poller = epoll_create1(0);
    struct epoll_event event = {.events = EPOLLIN, .data.ptr = NULL};
    if (epoll_ctl(poller, EPOLL_CTL_ADD, listener, &event)) stop("epoll");
    event.data.ptr = &poller; /* standard input */
    if (epoll_ctl(poller, EPOLL_CTL_ADD, STDIN, &event)) stop("epoll");
    printf("ready, %ld KiB\n", resident()), fflush(stdout);
    for (;;) {
        /* One event at a time: a step on one link may close another one. */
        struct epoll_event one;
        int got = epoll_wait(poller, &one, 1, -1);
        if (got < 0 && errno != EINTR) stop("epoll");
        if (got <= 0) continue;
        if (one.data.ptr == &poller) break;
        if (one.data.ptr) hear(one.data.ptr);
        else accept_all();
    }
    printf("at the end: %u open, %ld KiB\n", open_links, resident());
    dn_node_free(&node);
    return 0;
}
