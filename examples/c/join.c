/* SPDX-License-Identifier: Apache-2.0 */
/* A hidden node in C: it registers with the port mapper, accepts and dials, and keeps its connections by ticks.
 *
 * usage: join [--cookie FILE] NAME TICK SECONDS [PEER]
 *
 * The cookie is that of FILE, else of DISTNODE_COOKIE in the environment, else of $HOME/.erlang.cookie: no word of the command
 * line, which `ps` shows to everybody. A file that others than its owner can reach is refused, as `erl` refuses it.
 *
 * It prints a line when a peer comes up or goes down, sends a tick after each TICK seconds (a quarter of net_ticktime), and
 * ends after SECONDS. Hosts are names or addresses, IPv4 or IPv6; each address of PEER's host is tried. It listens at ::1 where its
 * own host is an IPv6 address, else at 127.0.0.1. The port mapper is at ERL_EPMD_PORT, 4369 if unset. It answers net_adm:ping; all
 * else that Erlang's processes say to it is dropped. */
#define _POSIX_C_SOURCE 200809L
#include <distnode.h>

#include <arpa/inet.h>
#include <errno.h>
#include <netdb.h>
#include <poll.h>
#include <stdio.h>
#include <stdlib.h>
#include <string.h>
#include <sys/random.h>
#include <sys/socket.h>
#include <sys/stat.h>
#include <time.h>
#include <unistd.h>

enum { MOST_LINKS = 64, ROOM = 65540, SAY = 1024, COOKIE = 4097, FORGET_EACH = 65536, PING = 2048, WRITE_SECONDS = 5 };

/* A connection that carries one end of the node. */
struct link {
    int fd;            /* -1: the place is free */
    uint32_t end;
    int up;
    size_t held;       /* bytes of a frame that has not come whole, or of a packet's length */
    uint32_t skip;     /* bytes of a packet that are still to be dropped */
    char name[256];    /* of the peer that is up */
    uint8_t bytes[ROOM];
};

static dn_node node = DN_NODE_INIT;
static struct link links[MOST_LINKS];

static void stop(const char *what, uint32_t code) {
    uint8_t word[16];
    size_t n = 0;
    if (code) dn_code_name(code, word, sizeof word, &n);
    fprintf(stderr, "join: %s%s%.*s\n", what, code ? ": " : "", (int)n, (const char *)word);
    exit(1);
}

static uint32_t drawn(void) {
    uint32_t challenge;
    if (getrandom(&challenge, sizeof challenge, 0) != sizeof challenge) stop("no random numbers", 0);
    return challenge;
}

/* Writes all bytes. -1: a write failed, or the other side read nothing for WRITE_SECONDS. */
static int write_all(int fd, const uint8_t *bytes, size_t n) {
    while (n) {
        struct pollfd it = {.fd = fd, .events = POLLOUT};
        if (poll(&it, 1, 1000 * WRITE_SECONDS) <= 0) return -1;
        ssize_t done = send(fd, bytes, n, MSG_NOSIGNAL | MSG_DONTWAIT);
        if (done < 0 && errno == EAGAIN) continue;
        if (done <= 0) return -1;
        bytes += done, n -= (size_t)done;
    }
    return 0;
}

/* The addresses of a host, in the resolver's order; NULL where it has none. */
static struct addrinfo *addresses_of(const char *host) {
    const struct addrinfo kind = {.ai_socktype = SOCK_STREAM};
    struct addrinfo *found = NULL;
    return getaddrinfo(host, NULL, &kind, &found) ? NULL : found;
}

/* The place of an address at which its port stands, in the order of the network. */
static in_port_t *port_of(struct sockaddr_storage *at) {
    return at->ss_family == AF_INET6 ? &((struct sockaddr_in6 *)at)->sin6_port : &((struct sockaddr_in *)at)->sin_port;
}

/* A connection to a port of an address. */
static int connected(const struct addrinfo *at, int port) {
    struct sockaddr_storage to = {0};
    memcpy(&to, at->ai_addr, at->ai_addrlen);
    *port_of(&to) = htons((uint16_t)port);
    int fd = socket(at->ai_family, SOCK_STREAM, 0);
    if (fd >= 0 && !connect(fd, (struct sockaddr *)&to, at->ai_addrlen)) return fd;
    if (fd >= 0) close(fd);
    return -1;
}

/* A connection to a port of this host. */
static int connected_here(int port) {
    const char *const hosts[] = {"127.0.0.1", "::1"};
    int fd = -1;
    for (size_t i = 0; i < 2 && fd < 0; i++) {
        struct addrinfo *at = addresses_of(hosts[i]);
        if (at) fd = connected(at, port), freeaddrinfo(at);
    }
    return fd;
}

/* Listens at this host, at an address of the kind that the node's own host has, and answers the port. */
static int listening(const char *name, int *port) {
    struct addrinfo *at = addresses_of(strchr(name, ':') ? "::1" : "127.0.0.1");
    struct sockaddr_storage place = {0};
    socklen_t size = sizeof place;
    int fd = at ? socket(at->ai_family, SOCK_STREAM, 0) : -1;
    if (fd < 0 || bind(fd, at->ai_addr, at->ai_addrlen) || listen(fd, 8) || getsockname(fd, (struct sockaddr *)&place, &size))
        stop("cannot listen", 0);
    freeaddrinfo(at);
    *port = ntohs(*port_of(&place));
    return fd;
}

/* Reads until there are so many bytes, or the connection ends. */
static size_t read_up_to(int fd, uint8_t *room, size_t most) {
    size_t n = 0;
    for (ssize_t got; n < most && (got = recv(fd, room + n, most - n, 0)) > 0; n += (size_t)got) {}
    return n;
}

static struct link *link_of(uint32_t end) {
    for (struct link *it = links; it < links + MOST_LINKS; it++)
        if (it->fd >= 0 && it->end == end) return it;
    return NULL;
}

static struct link *new_link(int fd, uint32_t end) {
    for (struct link *it = links; it < links + MOST_LINKS; it++)
        if (it->fd < 0) {
            it->fd = fd, it->end = end, it->up = 0, it->held = 0, it->skip = 0;
            return it;
        }
    return NULL;
}

static void close_link(struct link *it, uint32_t why) {
    uint8_t word[16];
    size_t n = 0;
    dn_why_name(why, word, sizeof word, &n);
    if (it->up) printf("down %s %.*s\n", it->name, (int)n, (const char *)word), fflush(stdout);
    close(it->fd);
    it->fd = -1;
}

static void lose(struct link *it, uint32_t why) {
    dn_reply reply;
    dn_node_lost(&node, it->end, why, &reply);
    close_link(it, why);
}

/* Closes the connection of the end that a reply tells as closed. */
static void close_told(const dn_reply *reply) {
    struct link *it = reply->closed ? link_of(reply->closed_id) : NULL;
    if (it) close_link(it, reply->closed);
}

/* What dn_node_dial and dn_node_incoming answer: an end that made room is reported with every code. Now and then the node forgets
 * why ends were closed, and gives that memory back. */
static uint32_t newcomer(uint32_t code, const dn_reply *reply) {
    close_told(reply);
    if (!code && reply->id % FORGET_EACH == 0) dn_node_forget(&node, reply->id);
    return code;
}

/* Does what a reply wants: writes, closes, notes who is up. */
static void said(struct link *it, const dn_reply *reply) {
    uint8_t say[SAY];
    size_t n = 0;
    int failed = 0;
    if (reply->say) {
        if (dn_node_say(&node, say, sizeof say, &n)) stop("a step says too much", 0);
        failed = write_all(it->fd, say, n);
    }
    if (reply->up) {
        dn_peer peer;
        uint8_t name[255];
        uint32_t code = dn_node_peer_of(&node, it->end, &peer, name, sizeof name);
        if (code) stop("no peer", code);
        snprintf(it->name, sizeof it->name, "%.*s", (int)peer.name, (const char *)name);
        it->up = 1;
        printf("up %s %016llx %u\n", it->name, (unsigned long long)peer.common, peer.creation), fflush(stdout);
    }
    close_told(reply);
    if (failed && it->fd >= 0) lose(it, DN_WHY_WRITE_FAILED);
}

static void tick(struct link *it) {
    dn_reply reply;
    if (!dn_node_tick(&node, it->end, &reply)) said(it, &reply);
}

static void dropped(struct link *it, size_t n) {
    it->held -= n;
    memmove(it->bytes, it->bytes + n, it->held);
}

/* Some bytes of a packet. */
struct piece { const void *bytes; size_t n; };

#define TEXT(text) {text, sizeof text - 1}

/* Whether these bytes are those pieces, one after the other. */
static int are_pieces(const uint8_t *bytes, size_t n, const struct piece *piece, size_t count) {
    for (; count; bytes += piece->n, n -= piece->n, piece++, count--)
        if (n < piece->n || memcmp(bytes, piece->bytes, piece->n)) return 0;
    return !n;
}

/* Writes a packet of these pieces, behind its length. */
static void write_packet(struct link *it, const struct piece *piece, size_t count) {
    uint8_t packet[PING] = {0};
    size_t n = 4;
    for (; count; n += piece->n, piece++, count--) memcpy(packet + n, piece->bytes, piece->n);
    packet[2] = (uint8_t)((n - 4) >> 8), packet[3] = (uint8_t)(n - 4);
    if (write_all(it->fd, packet, n)) lose(it, DN_WHY_WRITE_FAILED);
}

/* Answers the n bytes of a packet that are held, at most PING, if it is that of net_adm:ping: {6, Pid, Unused, net_kernel} (REG_SEND), and
 * {'$gen_call', {Pid, Tag}, {is_auth, Node}}. Node is that of Pid and of Tag, which is a reference, or [alias | Reference]. The answer is
 * {2, Unused, Pid} (SEND), and {Tag, yes}. Each term has one form under the flags below (ERTS User's Guide, External Term Format). In a
 * shorter packet a length is read behind its end, but within the buffer, and the pieces are then more than its n bytes. */
static void answer_ping(struct link *it, size_t n) {
    static const char call[] = "w\0w\12net_kernel\203h\3w\11$gen_callh\2", alias[] = "l\0\0\0\1w\5alias";
    const uint8_t *pid = it->bytes + 6, *node = pid + 1;
    size_t node_n = 2u + node[1], pid_n = 1 + node_n + 12;
    const uint8_t *tag = pid + pid_n + sizeof call - 1 + pid_n;
    size_t alias_n = memcmp(tag, alias, sizeof alias - 1) ? 0 : sizeof alias - 1;
    const uint8_t *words = tag + alias_n + 2;
    size_t numbers_n = 4 + 4u * *words, tag_n = alias_n + 3 + node_n + numbers_n;
    const struct piece asked[] = {TEXT("p\203h\4a\6"), TEXT("Xw"), {pid + 2, pid_n - 2}, TEXT(call), {pid, pid_n}, {alias, alias_n}, TEXT("Z\0"),
        {words, 1}, {node, node_n}, {words + 1 + node_n, numbers_n}, TEXT("h\2w\7is_auth"), {node, node_n}};
    const struct piece answer[] = {TEXT("p\203h\3a\2w\0"), {pid, pid_n}, TEXT("\203h\2"), {tag, tag_n}, TEXT("w\3yes")};
    if (are_pieces(it->bytes, n, asked, sizeof asked / sizeof *asked)) write_packet(it, answer, sizeof answer / sizeof *answer);
}

/* Takes what is held: frames of the handshake, then packets, of which one without bytes is a tick and is answered by one. A packet of
 * at most PING bytes is looked at once it is whole. */
static void take(struct link *it) {
    while (it->fd >= 0 && !it->up) {
        dn_reply reply;
        uint32_t code = dn_node_received(&node, it->end, it->bytes, it->held, drawn(), &reply);
        if (code == DN_AWAITS) return;
        if (code) { lose(it, code == DN_NO_MEMORY ? DN_WHY_NO_MEMORY : DN_WHY_GAVE_UP); return; }
        dropped(it, reply.taken);
        said(it, &reply);
    }
    while (it->fd >= 0) {
        size_t n = it->skip < it->held ? it->skip : it->held;
        dropped(it, n), it->skip -= (uint32_t)n;
        if (it->skip || it->held < 4) return;
        uint32_t size = (uint32_t)it->bytes[0] << 24 | it->bytes[1] << 16 | it->bytes[2] << 8 | it->bytes[3];
        if (size <= PING && it->held - 4 < size) return;
        dropped(it, 4), it->skip = size;
        if (!size) tick(it);
        else if (size <= PING) answer_ping(it, size);
    }
}

static void came(struct link *it) {
    ssize_t got = recv(it->fd, it->bytes + it->held, ROOM - it->held, 0);
    if (got <= 0) { lose(it, got ? DN_WHY_READ_FAILED : DN_WHY_ENDED); return; }
    it->held += (size_t)got;
    take(it);
}

/* Registers under the part of the name before the @, and answers the creation. The registration lasts as the connection does. */
static uint32_t registered(int mapper, const char *name, int port) {
    dn_info info = {(uint16_t)port, 6, 5, 0x48, 0};
    uint8_t bytes[512];
    size_t n;
    uint32_t result, creation, code = dn_epmd_alive_request(&info, (const uint8_t *)name, strcspn(name, "@"), bytes, sizeof bytes, &n);
    if (code) stop("the name", code);
    if (mapper < 0 || write_all(mapper, bytes, n)) stop("no port mapper", 0);
    code = dn_epmd_alive_answer(bytes, read_up_to(mapper, bytes, 6), &result, &creation);
    if (code) stop("the port mapper's answer", code);
    if (result) stop("the port mapper refuses the name", 0);
    return creation;
}

/* The peer's port, of which the port mapper at this address knows. */
static int looked_up(const struct addrinfo *at, int epmd, const char *peer) {
    uint8_t bytes[1024];
    size_t n;
    uint32_t result = 1, code = dn_epmd_port_request((const uint8_t *)peer, strcspn(peer, "@"), bytes, sizeof bytes, &n);
    dn_info info;
    int fd = connected(at, epmd);
    if (!code && fd >= 0 && !write_all(fd, bytes, n))
        code = dn_epmd_port_answer(bytes, read_up_to(fd, bytes, sizeof bytes), &result, &info);
    if (fd >= 0) close(fd);
    return code || result ? -1 : info.port;
}

/* A connection to the peer at the first address of its host at which the port mapper knows it and it listens. */
static int connected_to(const char *peer, int epmd) {
    struct addrinfo *all = addresses_of(strchr(peer, '@') + 1);
    int fd = -1;
    for (const struct addrinfo *at = all; at && fd < 0; at = at->ai_next) {
        int port = looked_up(at, epmd, peer);
        if (port >= 0) fd = connected(at, port);
    }
    if (all) freeaddrinfo(all);
    return fd;
}

static void dial(const char *peer, int epmd) {
    dn_reply reply;
    uint32_t code = newcomer(dn_node_dial(&node, (const uint8_t *)peer, strlen(peer), 1, &reply), &reply);
    if (code) stop("the dial", code);
    uint32_t end = reply.id;
    int fd = connected_to(peer, epmd);
    struct link *it = fd < 0 ? NULL : new_link(fd, end);
    if (!it) {
        fprintf(stderr, "join: %s cannot be reached\n", peer);
        dn_node_lost(&node, end, DN_WHY_DIAL_FAILED, &reply);
    } else if (!dn_node_opened(&node, end, &reply)) {
        said(it, &reply);
    }
}

static void accept_on(int listener) {
    dn_reply reply;
    int fd = accept(listener, NULL, NULL);
    if (fd < 0) return;
    if (newcomer(dn_node_incoming(&node, &reply), &reply)) close(fd);
    else if (!new_link(fd, reply.id)) close(fd), dn_node_lost(&node, reply.id, DN_WHY_GAVE_UP, &reply);
}

/* The text of a cookie's file. */
static size_t read_cookie(const char *path, uint8_t *text) {
    struct stat found;
    FILE *file = fopen(path, "r");
    if (!file || fstat(fileno(file), &found)) stop("the cookie's file cannot be opened", 0);
    if (found.st_mode & (S_IRWXG | S_IRWXO)) stop("the cookie's file must be accessible by owner only", 0);
    size_t n = fread(text, 1, COOKIE, file);
    fclose(file);
    return n;
}

/* The text of the cookie: that of the file that is named, else of the environment, else of the home folder's file. */
static size_t cookie_of(const char *file, uint8_t *text) {
    const char *said = getenv("DISTNODE_COOKIE"), *home = getenv("HOME");
    char path[4096];
    if (file) return read_cookie(file, text);
    if (said) {
        size_t n = strnlen(said, COOKIE);
        memcpy(text, said, n);
        return n;
    }
    if (!home) stop("no home folder", 0);
    snprintf(path, sizeof path, "%s/.erlang.cookie", home);
    return read_cookie(path, text);
}

static double now(void) {
    struct timespec t;
    clock_gettime(CLOCK_MONOTONIC, &t);
    return (double)t.tv_sec + (double)t.tv_nsec * 1e-9;
}

int main(int argc, char **argv) {
    const char *file = NULL;
    if (argc > 2 && !strcmp(argv[1], "--cookie")) file = argv[2], argc -= 2, argv += 2;
    if (argc < 4) { fprintf(stderr, "usage: join [--cookie FILE] NAME TICK SECONDS [PEER]\n"); return 2; }
    uint8_t cookie[COOKIE];
    size_t cookie_len = cookie_of(file, cookie);
    int epmd = getenv("ERL_EPMD_PORT") ? atoi(getenv("ERL_EPMD_PORT")) : 4369;
    for (int i = 0; i < MOST_LINKS; i++) links[i].fd = -1;
    int port = 0, listener = listening(argv[1], &port), mapper = connected_here(epmd);
    /* flags as OTP 29 requires them, and those required that OTP 25 requires; each open end has a place in the table */
    uint32_t creation = registered(mapper, argv[1], port);
    dn_setup setup = {.flags = 0x403070f94, .required = 0x1070f94, .creation = creation, .most_open_ends = MOST_LINKS};
    uint32_t code = dn_node_new(&node, (const uint8_t *)argv[1], strlen(argv[1]), cookie, cookie_len, &setup);
    if (code) stop("no node", code);
    printf("ready\n"), fflush(stdout);
    if (argc > 4) dial(argv[4], epmd);

    double every = atof(argv[2]), end = now() + atof(argv[3]), due = now() + every;
    for (double t; (t = now()) < end;) {
        struct pollfd polled[MOST_LINKS + 1];
        struct link *of[MOST_LINKS + 1];
        nfds_t n = 0;
        polled[n++] = (struct pollfd){.fd = listener, .events = POLLIN};
        for (struct link *it = links; it < links + MOST_LINKS; it++)
            if (it->fd >= 0) of[n] = it, polled[n++] = (struct pollfd){.fd = it->fd, .events = POLLIN};
        double wait = (due < end ? due : end) - t;
        poll(polled, n, wait > 0 ? (int)(wait * 1000) + 1 : 0);
        for (nfds_t i = 1; i < n; i++)
            if (polled[i].revents && of[i]->fd == polled[i].fd) came(of[i]);
        if (polled[0].revents) accept_on(listener);
        if (due <= now()) {
            due += every;
            for (struct link *it = links; it < links + MOST_LINKS; it++)
                if (it->fd >= 0 && it->up) tick(it);
        }
    }
    for (struct link *it = links; it < links + MOST_LINKS; it++)
        if (it->fd >= 0) lose(it, DN_WHY_GAVE_UP);
    dn_node_free(&node);
    close(mapper), close(listener);
    return 0;
}
