/* SPDX-License-Identifier: Apache-2.0 */
/* What the programs call of the system beside the C library, on processors for which the toolchain brings no object of it: fifteen
 * functions of its crate `os`, which describes each. No proof covers this file; cases.c has what each call promises. What the system
 * answers, and errno, goes back as it is: so EINTR does, and the caller asks again. */
#define _GNU_SOURCE
#include <errno.h>
#include <fcntl.h>
#include <netdb.h>
#include <signal.h>
#include <stdbool.h>
#include <stddef.h>
#include <stdint.h>
#include <stdlib.h>
#include <string.h>
#include <sys/epoll.h>
#include <sys/ioctl.h>
#include <sys/prctl.h>
#include <sys/socket.h>
#include <sys/uio.h>
#include <time.h>
#include <unistd.h>

int rattle_errno(void) { return errno; }

void rattle_set_errno(int error) { errno = error; }

/* Puts a text into a buffer, and returns its length; -1: there is no text; -2: it does not fit, and its front fills the buffer. */
static ssize_t copy(const char *text, uint8_t *buffer, size_t room) {
    if (!text) return -1;
    size_t size = strlen(text);
    memcpy(buffer, text, size < room ? size : room);
    return size <= room ? (ssize_t)size : -2;
}

/* The words with which the program was started. The C library of GNU gives them to each function that runs before `main`. */
static size_t word_count;
static char **words;

__attribute__((constructor)) static void keep_words(int count, char **given) {
    word_count = (size_t)count;
    words = given;
}

size_t rattle_arg_count(void) { return word_count; }

ssize_t rattle_arg(size_t number, uint8_t *buffer, size_t room) {
    return copy(number < word_count ? words[number] : NULL, buffer, room);
}

ssize_t rattle_env(const char *name, uint8_t *buffer, size_t room) { return copy(getenv(name), buffer, room); }

/* (there is no environment at all after clearenv) */
ssize_t rattle_env_at(size_t number, uint8_t *buffer, size_t room) {
    char **entry = environ;
    while (entry && *entry && number--) entry++;
    return copy(entry ? *entry : NULL, buffer, room);
}

/* Opens a directory for reading, and no file; a link at the name's end is not followed, unless a slash is behind it. */
int rattle_open_dir_at(int dir, const char *name) { return openat(dir, name, O_RDONLY | O_DIRECTORY | O_NOFOLLOW | O_CLOEXEC); }

int rattle_set_nonblocking(int fd, bool on) {
    int flag = on;
    return ioctl(fd, FIONBIO, &flag);
}

int rattle_set_thread_name(const char *name) { return prctl(PR_SET_NAME, name, 0L, 0L, 0L); }

/* Writes four parts in their order, as writev; to a socket as sendmsg, without SIGPIPE. */
ssize_t rattle_write_parts(int fd, bool is_socket, const uint8_t *a, size_t of_a, const uint8_t *b, size_t of_b, const uint8_t *c,
                           size_t of_c, const uint8_t *d, size_t of_d) {
    struct iovec parts[] = {{(void *)a, of_a}, {(void *)b, of_b}, {(void *)c, of_c}, {(void *)d, of_d}};
    struct msghdr message = {.msg_iov = parts, .msg_iovlen = 4};
    return is_socket ? sendmsg(fd, &message, MSG_NOSIGNAL) : writev(fd, parts, 4);
}

/* Locks a range of what fd is open on, or unlocks it, without waiting. The lock is that of the open file, so its l_pid has to be 0. */
int rattle_lock_range(int fd, int16_t kind, int64_t start, int64_t length) {
    struct flock range = {.l_type = kind, .l_whence = SEEK_SET, .l_start = start, .l_len = length, .l_pid = 0};
    return fcntl(fd, F_OFD_SETLK, &range);
}

int rattle_epoll_ctl(int epoll, int operation, int fd, uint32_t events, uint64_t data) {
    struct epoll_event event = {.events = events, .data.u64 = data};
    return epoll_ctl(epoll, operation, fd, &event);
}

/* An entry as the caller lays it out. The system's has the same fields and no gap between them on x86-64, and this layout elsewhere. */
struct ready {
    uint32_t events;
    uint64_t data;
};

_Static_assert(offsetof(struct ready, data) == 8 && sizeof(struct ready) == 16, "the caller's entries have 16 bytes");
_Static_assert(sizeof(struct epoll_event) <= sizeof(struct ready), "the system's entries fit into the caller's");

/* The most entries of one call; the system takes no more than fit into an int of bytes. */
#define MOST_READY 0x1000000

/* Waits, and puts the entries that came at the start of the caller's. They come in the system's layout, and are laid out from the last
 * one on, since each of the caller's stands no earlier than the system's. */
ssize_t rattle_epoll_wait(int epoll, struct ready *ready, size_t room, int timeout) {
    struct epoll_event *found = (void *)ready;
    int count = epoll_wait(epoll, found, room < MOST_READY ? (int)room : MOST_READY, timeout);
    for (int at = count; at-- > 0;) {
        struct epoll_event event;
        memcpy(&event, found + at, sizeof event);
        struct ready entry = {event.events, event.data.u64};
        memcpy(ready + at, &entry, sizeof entry);
    }
    return count;
}

/* write, without SIGPIPE: that is held back meanwhile, and taken if it came of this call, of which a part may have been written. One
 * that was pending before stays so. */
ssize_t rattle_write_no_sigpipe(int fd, const uint8_t *buffer, size_t size) {
    sigset_t pipe, before, pending;
    sigemptyset(&pipe);
    sigaddset(&pipe, SIGPIPE);
    pthread_sigmask(SIG_BLOCK, &pipe, &before);
    sigpending(&pending);
    ssize_t written = write(fd, buffer, size);
    int error = errno;
    bool is_whole = written >= 0 && (size_t)written == size;
    if (!is_whole && !sigismember(&pending, SIGPIPE)) {
        struct timespec no_time = {0, 0};
        while (sigtimedwait(&pipe, NULL, &no_time) < 0 && errno == EINTR) continue;
    }
    pthread_sigmask(SIG_SETMASK, &before, NULL);
    errno = error;
    return written;
}

/* An address as sockaddr_in or sockaddr_in6 has it, in its first bytes. */
struct raw_address {
    uint8_t bytes[128];
    uint32_t length;
};

_Static_assert(sizeof(struct raw_address) == 132, "the caller's addresses have 132 bytes");

static bool is_address(const struct addrinfo *it) {
    return (it->ai_family == AF_INET || it->ai_family == AF_INET6) && it->ai_addrlen <= sizeof((struct raw_address *)0)->bytes;
}

/* Puts the first addresses of a host into those of the caller, and returns how many, or the code of an error, which is negative. */
ssize_t rattle_lookup_host(const char *name, struct raw_address *found, size_t room) {
    struct addrinfo hints = {.ai_socktype = SOCK_STREAM}, *all = NULL;
    int error = getaddrinfo(name, NULL, &hints, &all);
    if (error) return error;
    size_t count = 0;
    for (struct addrinfo *it = all; it && count < room; it = it->ai_next) {
        if (!is_address(it)) continue;
        memcpy(found[count].bytes, it->ai_addr, it->ai_addrlen);
        found[count++].length = it->ai_addrlen;
    }
    freeaddrinfo(all);
    return (ssize_t)count;
}
