/* Strangers to a node: they know no cookie.
 * usage: strangers knock PORT NUMBER      so many connections without a byte, one after another, each cut at once
 *        strangers pace PORT NUMBER RATE  so many connections without a byte, RATE of them a second, all held until the last is made
 *        strangers crowd PORT NUMBER FIRST   so many connections at once, each with a name of its own, which has a number from FIRST
 *                                         on, held until standard input ends
 *
 * All from 127.0.0.0/8. The crowd says `there NUMBER` once the last name is written, or no descriptor is left for a further one. */
#define _GNU_SOURCE
#include <arpa/inet.h>
#include <errno.h>
#include <fcntl.h>
#include <stdio.h>
#include <stdlib.h>
#include <string.h>
#include <sys/resource.h>
#include <sys/socket.h>
#include <time.h>
#include <unistd.h>

enum { PORTS = 20000 }; /* connections from one address */

static void stop(const char *what) {
    perror(what);
    exit(1);
}

static int connected(int port, int i) {
    struct sockaddr_in to = {.sin_family = AF_INET, .sin_port = htons((uint16_t)port), .sin_addr.s_addr = htonl(INADDR_LOOPBACK)};
    struct sockaddr_in from = {.sin_family = AF_INET, .sin_addr.s_addr = htonl(0x7f000002u + (uint32_t)(i / PORTS) % 250)};
    int fd = socket(AF_INET, SOCK_STREAM, 0), yes = 1;
    if (fd < 0 && errno == EMFILE) return -1;
    if (fd < 0) stop("socket");
    setsockopt(fd, SOL_SOCKET, SO_REUSEADDR, &yes, sizeof yes);
    setsockopt(fd, IPPROTO_IP, 24 /* IP_BIND_ADDRESS_NO_PORT */, &yes, sizeof yes);
    if (bind(fd, (struct sockaddr *)&from, sizeof from) || connect(fd, (struct sockaddr *)&to, sizeof to)) stop("connect");
    return fd;
}

/* Closed by a reset, so that no port is kept back. */
static void cut(int fd) {
    struct linger off = {1, 0};
    setsockopt(fd, SOL_SOCKET, SO_LINGER, &off, sizeof off);
    close(fd);
}

static void knock(int port, int number) {
    for (int i = 0; i < number; i++) cut(connected(port, i));
}

static void pace(int port, int number, int rate) {
    struct rlimit most;
    getrlimit(RLIMIT_NOFILE, &most), most.rlim_cur = most.rlim_max, setrlimit(RLIMIT_NOFILE, &most);
    struct timespec at;
    clock_gettime(CLOCK_MONOTONIC, &at);
    for (int i = 0; i < number && connected(port, i) >= 0; i++) {
        at.tv_nsec += 1000000000 / rate;
        if (at.tv_nsec >= 1000000000) at.tv_sec++, at.tv_nsec -= 1000000000;
        clock_nanosleep(CLOCK_MONOTONIC, TIMER_ABSTIME, &at, NULL);
    }
}

/* The name of a node of OTP 25 in the form of version 6. */
static size_t name_of(int i, unsigned char *say) {
    unsigned char flags[8] = {0, 0, 0, 0xd, 0x07, 0xdf, 0x7f, 0xbd};
    size_t n = (size_t)sprintf((char *)say + 17, "s%d@127.0.0.1", i);
    say[0] = 0, say[1] = (unsigned char)(15 + n), say[2] = 'N';
    memcpy(say + 3, flags, 8), memset(say + 11, 0, 4), say[14] = 1, say[15] = 0, say[16] = (unsigned char)n;
    return 17 + n;
}

static void crowd(int port, int number, int first) {
    struct rlimit most;
    getrlimit(RLIMIT_NOFILE, &most), most.rlim_cur = most.rlim_max, setrlimit(RLIMIT_NOFILE, &most);
    int i = 0;
    for (int fd; i < number && (fd = connected(port, first + i)) >= 0; i++) {
        unsigned char say[300];
        size_t n = name_of(first + i, say);
        if (send(fd, say, n, MSG_NOSIGNAL) != (ssize_t)n && errno != EPIPE && errno != ECONNRESET) stop("send");
    }
    printf("there %d\n", i), fflush(stdout);
    while (getchar() != EOF) {}
}

int main(int argc, char **argv) {
    if (argc < 4) return 2;
    int port = atoi(argv[2]), number = atoi(argv[3]);
    if (!strcmp(argv[1], "knock")) knock(port, number);
    else if (!strcmp(argv[1], "pace")) pace(port, number, argc > 4 ? atoi(argv[4]) : 1000);
    else crowd(port, number, argc > 4 ? atoi(argv[4]) : 0);
    return 0;
}
