/* SPDX-License-Identifier: Apache-2.0 */
/* What the functions of heap.c and os.c promise, as the toolchain's crates `libc` and `os` describe them: a table of cases, to which
 * bin/check_arm64 holds both these files, compiled for each processor, and the toolchain's own objects for x86-64. The first words of a
 * call are WORDS, below. Each case is played in a process of its own, which has ten seconds; a line reports it, and the status is 1 if one
 * does not hold. `--list` prints the table alone. */
#define _GNU_SOURCE
#include <errno.h>
#include <fcntl.h>
#include <netdb.h>
#include <poll.h>
#include <pthread.h>
#include <signal.h>
#include <stdbool.h>
#include <stddef.h>
#include <stdint.h>
#include <stdio.h>
#include <stdlib.h>
#include <string.h>
#include <sys/epoll.h>
#include <sys/eventfd.h>
#include <sys/file.h>
#include <sys/ioctl.h>
#include <sys/prctl.h>
#include <sys/resource.h>
#include <sys/socket.h>
#include <sys/stat.h>
#include <sys/time.h>
#include <sys/wait.h>
#include <netinet/in.h>
#include <netinet/tcp.h>
#include <time.h>
#include <unistd.h>

struct tried {
    bool is_there;
    uint8_t *at;
};

struct ready {
    uint32_t events;
    uint64_t data;
};

struct raw_address {
    uint8_t bytes[128];
    uint32_t length;
};

struct tried rattle_alloc(size_t size, size_t align);
struct tried rattle_realloc(void *block, size_t kept, size_t size, size_t align);
void rattle_dealloc(void *block);
int rattle_errno(void);
void rattle_set_errno(int error);
size_t rattle_arg_count(void);
ssize_t rattle_arg(size_t number, uint8_t *buffer, size_t room);
ssize_t rattle_env(const char *name, uint8_t *buffer, size_t room);
ssize_t rattle_env_at(size_t number, uint8_t *buffer, size_t room);
int rattle_open_dir_at(int dir, const char *name);
/* (a bool and a short number are passed in registers whose upper bits mean nothing: the cases set them) */
int rattle_set_nonblocking(int fd, uint32_t on);
int rattle_set_thread_name(const char *name);
ssize_t rattle_write_parts(int fd, uint32_t is_socket, const void *a, size_t of_a, const void *b, size_t of_b, const void *c, size_t of_c,
                           const void *d, size_t of_d);
int rattle_lock_range(int fd, uint32_t kind, int64_t start, int64_t length);
int rattle_epoll_ctl(int epoll, int operation, int fd, uint32_t events, uint64_t data);
ssize_t rattle_epoll_wait(int epoll, struct ready *ready, size_t room, int timeout);
ssize_t rattle_write_no_sigpipe(int fd, const void *buffer, size_t size);
ssize_t rattle_lookup_host(const char *name, struct raw_address *found, size_t room);

/* Numbers and layouts that the programs pass to the C library themselves, the same on both processors. */
#define IS(name, number) _Static_assert((name) == (number), #name)
IS(O_RDONLY, 0); IS(O_WRONLY, 1); IS(O_RDWR, 2); IS(O_CREAT, 0100); IS(O_EXCL, 0200); IS(O_NOCTTY, 0400); IS(O_TRUNC, 01000);
IS(O_APPEND, 02000); IS(O_NONBLOCK, 04000); IS(O_CLOEXEC, 02000000); IS(SEEK_SET, 0); IS(SEEK_CUR, 1); IS(SEEK_END, 2);
IS(F_RDLCK, 0); IS(F_WRLCK, 1); IS(F_UNLCK, 2); IS(F_DUPFD_CLOEXEC, 1030); IS(AT_FDCWD, -100); IS(AT_EMPTY_PATH, 0x1000);
IS(AT_SYMLINK_NOFOLLOW, 0x100); IS(STATX_BASIC_STATS, 0x7ff); IS(STATX_BTIME, 0x800); IS(S_IFMT, 0170000); IS(S_IFREG, 0100000);
IS(CLOCK_REALTIME, 0); IS(CLOCK_MONOTONIC, 1); IS(RLIMIT_NOFILE, 7); IS(_SC_NPROCESSORS_ONLN, 84); IS(_SC_PAGESIZE, 30);
IS(EPERM, 1); IS(ENOENT, 2); IS(EINTR, 4); IS(EIO, 5); IS(EBADF, 9); IS(EAGAIN, 11); IS(ENOMEM, 12); IS(EACCES, 13); IS(EEXIST, 17);
IS(ENOTDIR, 20); IS(EISDIR, 21); IS(EINVAL, 22); IS(EMFILE, 24); IS(EFBIG, 27); IS(ENOSPC, 28); IS(ESPIPE, 29); IS(EROFS, 30);
IS(EPIPE, 32); IS(ERANGE, 34); IS(ENAMETOOLONG, 36); IS(ELOOP, 40); IS(ENOTSOCK, 88); IS(EAFNOSUPPORT, 97); IS(EADDRINUSE, 98);
IS(EADDRNOTAVAIL, 99); IS(ECONNABORTED, 103); IS(ECONNRESET, 104); IS(ENOTCONN, 107); IS(ETIMEDOUT, 110); IS(ECONNREFUSED, 111);
IS(EALREADY, 114); IS(EINPROGRESS, 115); IS(AF_UNIX, 1); IS(AF_INET, 2); IS(AF_INET6, 10); IS(SOCK_STREAM, 1); IS(SOCK_NONBLOCK, 04000);
IS(SOCK_CLOEXEC, 02000000); IS(SOL_SOCKET, 1); IS(SO_REUSEADDR, 2); IS(SO_ERROR, 4); IS(SO_SNDBUF, 7); IS(SO_RCVBUF, 8);
IS(SO_KEEPALIVE, 9); IS(SO_RCVTIMEO, 20); IS(SO_SNDTIMEO, 21); IS(IPPROTO_TCP, 6); IS(TCP_NODELAY, 1); IS(TCP_USER_TIMEOUT, 18);
IS(IPPROTO_IPV6, 41); IS(IPV6_V6ONLY, 26); IS(SHUT_RD, 0); IS(SHUT_WR, 1); IS(SHUT_RDWR, 2); IS(MSG_PEEK, 2); IS(MSG_DONTWAIT, 0x40);
IS(MSG_NOSIGNAL, 0x4000); IS(POLLIN, 1); IS(POLLOUT, 4); IS(POLLERR, 8); IS(POLLHUP, 0x10); IS(POLLNVAL, 0x20); IS(EPOLL_CLOEXEC, 02000000);
IS(EPOLL_CTL_ADD, 1); IS(EPOLL_CTL_DEL, 2); IS(EPOLL_CTL_MOD, 3); IS(EPOLLIN, 1); IS(EPOLLOUT, 4); IS(EPOLLERR, 8); IS(EPOLLHUP, 0x10);
IS(EPOLLRDHUP, 0x2000); IS(EPOLLONESHOT, 1u << 30); IS(EPOLLET, 1u << 31); IS(EFD_NONBLOCK, 04000); IS(EFD_CLOEXEC, 02000000);
IS(EAI_NONAME, -2); IS(EAI_AGAIN, -3); IS(EAI_FAIL, -4); IS(EAI_NODATA, -5); IS(EAI_MEMORY, -10); IS(EAI_SYSTEM, -11);
IS(sizeof(struct timespec), 16); IS(offsetof(struct timespec, tv_nsec), 8); IS(sizeof(struct rlimit), 16); IS(sizeof(struct pollfd), 8);
IS(offsetof(struct pollfd, revents), 6); IS(sizeof(struct statx), 256); IS(offsetof(struct statx, stx_mode), 28);
IS(offsetof(struct statx, stx_size), 40); IS(offsetof(struct statx, stx_mtime), 112); IS(sizeof(struct sockaddr_storage), 128);
IS(sizeof(struct sockaddr_in), 16); IS(sizeof(struct sockaddr_in6), 28); IS(sizeof(cpu_set_t), 128);
IS(offsetof(struct tried, at), 8); IS(offsetof(struct ready, data), 8); IS(offsetof(struct raw_address, length), 128);

static const char *const WORDS[] = {"one", "", "three words", "\xff\x80"};
#define WORD_COUNT (sizeof WORDS / sizeof *WORDS)
static char **given;

/* A bool, and the kind of a lock, with some upper bits beside them. */
#define NO 0xabcdef00u
#define YES 0xabcdef01u
#define KIND(kind) (0xabcd0000u | (kind))

static bool has_error(ssize_t result, int error) { return result == -1 && errno == error; }

static bool are_all(const uint8_t *bytes, uint8_t byte, size_t size) {
    for (size_t at = 0; at < size; at++)
        if (bytes[at] != byte) return false;
    return true;
}

/* The heap. */

static bool block_has_its_bytes(void) {
    for (size_t align = 1; align <= 16; align *= 2)
        for (size_t size = 1; size < 5000; size += 37) {
            struct tried block = rattle_alloc(size, align);
            if (!block.is_there || (uintptr_t)block.at % 16) return false;
            memset(block.at, 0xa5, size);
            rattle_dealloc(block.at);
        }
    return true;
}

static bool blocks_of_nothing_differ(void) {
    struct tried one = rattle_alloc(0, 8), other = rattle_alloc(0, 8);
    bool differ = one.is_there && other.is_there && one.at && other.at && one.at != other.at;
    memset(one.at, 1, 8);
    rattle_dealloc(one.at);
    rattle_dealloc(other.at);
    return differ;
}

static bool refused_block(void) {
    errno = 0;
    struct tried block = rattle_alloc(SIZE_MAX / 2, 8);
    return !block.is_there && block.at && errno == ENOMEM;
}

/* A flag is a whole byte, 0 or 1. */
static bool flag_is_0_or_1(void) {
    struct tried block = rattle_alloc(8, 8), none = rattle_alloc(SIZE_MAX / 2, 8);
    uint8_t flag, no_flag;
    memcpy(&flag, &block, 1);
    memcpy(&no_flag, &none, 1);
    rattle_dealloc(block.at);
    return flag == 1 && no_flag == 0;
}

static bool resized_block_keeps_its_front(void) {
    size_t sizes[] = {64, 100000, 10, 3000000, 1, 64};
    struct tried block = rattle_alloc(10, 1);
    memset(block.at, 0x5a, 10);
    for (size_t at = 0, kept = 10; at < 6; at++) {
        kept = sizes[at] < kept ? sizes[at] : kept;
        block = rattle_realloc(block.at, kept, sizes[at], 1);
        if (!block.is_there || !are_all(block.at, 0x5a, kept)) return false;
    }
    rattle_dealloc(block.at);
    return true;
}

static bool resized_to_nothing(void) {
    struct tried block = rattle_realloc(rattle_alloc(100, 8).at, 0, 0, 8);
    if (!block.is_there || !block.at) return false;
    memset(block.at, 1, 8);
    rattle_dealloc(block.at);
    return true;
}

static bool refused_resize_leaves_the_block(void) {
    struct tried block = rattle_alloc(100, 1);
    memset(block.at, 0x77, 100);
    errno = 0;
    struct tried other = rattle_realloc(block.at, 100, SIZE_MAX / 2, 1);
    bool holds = !other.is_there && other.at && other.at != block.at && errno == ENOMEM && are_all(block.at, 0x77, 100);
    rattle_dealloc(block.at);
    return holds;
}

static bool dealloc_leaves_errno(void) {
    struct tried small = rattle_alloc(10, 1), large = rattle_alloc(10000000, 1);
    errno = 77;
    rattle_dealloc(small.at);
    rattle_dealloc(large.at);
    return errno == 77;
}

/* errno. */

static bool errno_is_the_systems(void) {
    bool is_read = close(-1) == -1 && rattle_errno() == EBADF;
    rattle_set_errno(EPIPE);
    return is_read && errno == EPIPE && rattle_errno() == EPIPE;
}

static void *sets_errno(void *unused) {
    rattle_set_errno(EIO);
    return unused;
}

static bool errno_is_of_a_thread(void) {
    pthread_t other;
    rattle_set_errno(EPIPE);
    if (pthread_create(&other, NULL, sets_errno, NULL) || pthread_join(other, NULL)) return false;
    return rattle_errno() == EPIPE;
}

/* Words and the environment. */

static bool words_are_counted(void) { return rattle_arg_count() == WORD_COUNT + 1; }

/* A text that is copied into a room of each size up to one more than it needs: what is behind it stays as it was. */
static bool fits_where_it_fits(const char *text, ssize_t (*copy)(uint8_t *, size_t)) {
    size_t size = strlen(text);
    for (size_t room = 0; room <= size + 1; room++) {
        uint8_t buffer[4200];
        memset(buffer, 0xee, sizeof buffer);
        size_t filled = room < size ? room : size;
        if (copy(buffer, room) != (room < size ? -2 : (ssize_t)size)) return false;
        if (memcmp(buffer, text, filled) || !are_all(buffer + filled, 0xee, sizeof buffer - filled)) return false;
    }
    return true;
}

static size_t number;
static ssize_t word(uint8_t *buffer, size_t room) { return rattle_arg(number, buffer, room); }
static ssize_t value(uint8_t *buffer, size_t room) { return rattle_env("CASES_OF_SYSTEM", buffer, room); }
static ssize_t entry(uint8_t *buffer, size_t room) { return rattle_env_at(number, buffer, room); }

static bool words_are_those_given(void) {
    for (number = 0; number <= WORD_COUNT; number++)
        if (!fits_where_it_fits(number ? WORDS[number - 1] : given[0], word)) return false;
    return true;
}

static bool no_such_word(void) {
    uint8_t byte = 7;
    return rattle_arg(WORD_COUNT + 1, &byte, 1) == -1 && rattle_arg(SIZE_MAX, &byte, 1) == -1 && byte == 7;
}

static bool values_are_those_set(void) {
    static char text[4097];
    memset(text, 'x', sizeof text - 1);
    const char *texts[] = {"", "=a=", "caf\xe9", text};
    for (int at = 0; at < 4; at++)
        if (setenv("CASES_OF_SYSTEM", texts[at], 1) || !fits_where_it_fits(texts[at], value)) return false;
    return true;
}

static bool no_such_variable(void) {
    uint8_t byte = 7;
    unsetenv("CASES_OF_SYSTEM");
    return value(&byte, 1) == -1 && byte == 7;
}

static bool entries_in_their_order(void) {
    const char *entries[] = {"A=1", "EMPTY=", "B=two=2"};
    clearenv();
    setenv("A", "1", 1), setenv("EMPTY", "", 1), setenv("B", "two=2", 1);
    uint8_t byte;
    for (number = 0; number < 3; number++)
        if (!fits_where_it_fits(entries[number], entry)) return false;
    return rattle_env_at(3, &byte, 1) == -1 && rattle_env_at(SIZE_MAX, &byte, 1) == -1;
}

static bool no_environment(void) {
    uint8_t byte;
    clearenv();
    return rattle_env_at(0, &byte, 1) == -1 && rattle_env("A", &byte, 1) == -1;
}

/* Directories. Each system has these of /proc: a link to a directory is self, a file is version. */

static bool is_directory(int fd, const char *name) {
    struct stat came, wanted;
    return !fstat(fd, &came) && !stat(name, &wanted) && S_ISDIR(came.st_mode) && came.st_dev == wanted.st_dev && came.st_ino == wanted.st_ino;
}

static bool directories_are_opened(void) {
    int top = rattle_open_dir_at(AT_FDCWD, "/proc"), below = rattle_open_dir_at(top, "sys");
    if (!is_directory(top, "/proc") || !is_directory(below, "/proc/sys") || chdir("/proc")) return false;
    return is_directory(rattle_open_dir_at(AT_FDCWD, "sys"), "/proc/sys") && is_directory(rattle_open_dir_at(below, ".."), "/proc") &&
           is_directory(rattle_open_dir_at(below, "/proc"), "/proc") && is_directory(rattle_open_dir_at(top, "self/"), "/proc/self");
}

static bool directory_is_for_reading(void) {
    int top = rattle_open_dir_at(AT_FDCWD, "/proc");
    return fcntl(top, F_GETFD) == FD_CLOEXEC && (fcntl(top, F_GETFL) & (O_ACCMODE | O_PATH)) == O_RDONLY;
}

static bool no_directory(void) {
    int top = rattle_open_dir_at(AT_FDCWD, "/proc"), file = open("/proc/version", O_RDONLY);
    if (!has_error(rattle_open_dir_at(top, "version"), ENOTDIR) || !has_error(rattle_open_dir_at(top, "self"), ENOTDIR)) return false;
    if (!has_error(rattle_open_dir_at(top, "no-such-name"), ENOENT) || !has_error(rattle_open_dir_at(top, ""), ENOENT)) return false;
    return has_error(rattle_open_dir_at(-1, "sys"), EBADF) && has_error(rattle_open_dir_at(file, "sys"), ENOTDIR);
}

/* Descriptors that wait or don't. */

static bool is_nonblocking(int fd) { return fcntl(fd, F_GETFL) & O_NONBLOCK; }

static bool waits_or_not(void) {
    int ends[2];
    char byte;
    if (pipe(ends) || rattle_set_nonblocking(ends[0], YES) || !is_nonblocking(ends[0]) || is_nonblocking(ends[1])) return false;
    if (!has_error(read(ends[0], &byte, 1), EAGAIN)) return false;
    return !rattle_set_nonblocking(ends[0], NO) && !is_nonblocking(ends[0]);
}

static bool of_each_duplicate(void) {
    int ends[2];
    if (socketpair(AF_UNIX, SOCK_STREAM, 0, ends)) return false;
    int other = dup(ends[0]);
    return !rattle_set_nonblocking(other, YES) && is_nonblocking(ends[0]) && !rattle_set_nonblocking(ends[0], NO) && !is_nonblocking(other);
}

static bool nonblocking_of_none(void) { return has_error(rattle_set_nonblocking(-1, YES), EBADF); }

/* The name of a thread. */

static bool thread_is_named(const char *text, size_t size, const char *wanted) {
    char name[16] = "", came[17] = "";
    memcpy(name, text, size);
    return !rattle_set_thread_name(name) && !prctl(PR_GET_NAME, came, 0L, 0L, 0L) && !strcmp(came, wanted);
}

static bool threads_have_names(void) {
    const char *whole = "fifteen bytes..";
    return thread_is_named("short", 5, "short") && thread_is_named(whole, 15, whole) && thread_is_named("a\0behind", 8, "a");
}

/* Writes of four parts. */

static ssize_t write_abcd(int fd, uint32_t is_socket) { return rattle_write_parts(fd, is_socket, "a", 1, "bb", 2, "ccc", 3, "d", 1); }

static bool is_read(int fd, const char *wanted) {
    char came[100];
    return read(fd, came, sizeof came) == (ssize_t)strlen(wanted) && !memcmp(came, wanted, strlen(wanted));
}

static bool parts_in_their_order(void) {
    int ends[2], sockets[2];
    if (pipe(ends) || socketpair(AF_UNIX, SOCK_STREAM, 0, sockets)) return false;
    if (write_abcd(ends[1], NO) != 7 || !is_read(ends[0], "abbcccd")) return false;
    if (write_abcd(sockets[1], YES) != 7 || !is_read(sockets[0], "abbcccd")) return false;
    return write_abcd(sockets[1], NO) == 7 && is_read(sockets[0], "abbcccd");
}

static bool parts_of_nothing(void) {
    int ends[2];
    if (pipe(ends)) return false;
    return !rattle_write_parts(ends[1], NO, (void *)1, 0, (void *)1, 0, (void *)1, 0, (void *)1, 0);
}

static bool parts_to_no_socket(void) {
    int ends[2];
    if (pipe(ends)) return false;
    return has_error(write_abcd(ends[1], YES), ENOTSOCK) && has_error(write_abcd(-1, YES), EBADF) && has_error(write_abcd(-1, NO), EBADF);
}

static bool parts_that_nobody_reads(void) {
    int sockets[2];
    if (socketpair(AF_UNIX, SOCK_STREAM, 0, sockets) || close(sockets[0])) return false;
    return has_error(write_abcd(sockets[1], YES), EPIPE);
}

static bool parts_that_fit_in_part(void) {
    static uint8_t many[1 << 20];
    int sockets[2];
    if (socketpair(AF_UNIX, SOCK_STREAM | SOCK_NONBLOCK, 0, sockets)) return false;
    ssize_t some = rattle_write_parts(sockets[1], YES, many, 1, many, sizeof many, many, sizeof many, many, sizeof many);
    while (rattle_write_parts(sockets[1], YES, many, 1, many, 1, many, 1, many, 1) > 0) continue;
    return some > 0 && some < 3 * (1 << 20) && has_error(write_abcd(sockets[1], YES), EAGAIN);
}

/* Signals. */

static volatile sig_atomic_t signals;
static void count_signal(int unused) { signals += !!unused; }

/* A signal comes in a moment, and again and again, to whoever waits in a call. */
static void interrupt(void) {
    struct sigaction act = {.sa_handler = count_signal};
    struct itimerval soon = {{0, 50000}, {0, 50000}};
    sigaction(SIGALRM, &act, NULL);
    setitimer(ITIMER_REAL, &soon, NULL);
}

static bool interrupted_parts(void) {
    static uint8_t many[1 << 16];
    int ends[2];
    if (pipe(ends)) return false;
    int size = fcntl(ends[1], F_GETPIPE_SZ);
    for (int at = 0; at < size; at += 4096)
        if (write(ends[1], many, 4096) != 4096) return false;
    interrupt();
    return has_error(write_abcd(ends[1], NO), EINTR) && has_error(rattle_write_no_sigpipe(ends[1], many, 1), EINTR);
}

static bool interrupted_wait(void) {
    struct ready ready[1];
    int epoll = epoll_create1(0);
    interrupt();
    return has_error(rattle_epoll_wait(epoll, ready, 1, -1), EINTR);
}

static bool is_pending(void) {
    sigset_t pending;
    return !sigpending(&pending) && sigismember(&pending, SIGPIPE) == 1;
}

/* A pipe that nobody reads; writes to it, and whether the call answers so, without the signal. */
static bool writes_to_nobody(void) {
    int ends[2];
    if (pipe(ends) || close(ends[0])) return false;
    errno = 0;
    return has_error(rattle_write_no_sigpipe(ends[1], "text", 4), EPIPE) && !is_pending();
}

static bool no_signal_by_default(void) { return writes_to_nobody() && writes_to_nobody(); }

static bool no_signal_where_one_is_taken(void) {
    signal(SIGPIPE, count_signal);
    return writes_to_nobody() && !signals && !raise(SIGPIPE) && signals == 1;
}

static bool no_signal_where_it_is_ignored(void) {
    signal(SIGPIPE, SIG_IGN);
    return writes_to_nobody() && signal(SIGPIPE, SIG_DFL) == SIG_IGN;
}

static void block_pipe(void) {
    sigset_t pipe;
    sigemptyset(&pipe);
    sigaddset(&pipe, SIGPIPE);
    sigprocmask(SIG_BLOCK, &pipe, NULL);
}

static bool is_blocked(int number) {
    sigset_t blocked;
    return !pthread_sigmask(SIG_BLOCK, NULL, &blocked) && sigismember(&blocked, number) == 1;
}

static bool no_signal_where_it_is_blocked(void) {
    block_pipe();
    return writes_to_nobody() && is_blocked(SIGPIPE) && !is_blocked(SIGINT);
}

static bool mask_is_as_before(void) { return writes_to_nobody() && !is_blocked(SIGPIPE); }

static bool signal_pending_before_stays(void) {
    int ends[2];
    block_pipe();
    if (raise(SIGPIPE) || pipe(ends) || close(ends[0]) || !is_pending()) return false;
    return has_error(rattle_write_no_sigpipe(ends[1], "text", 4), EPIPE) && is_pending();
}

static bool whole_write_leaves_a_pending_signal(void) {
    int ends[2];
    block_pipe();
    if (raise(SIGPIPE) || pipe(ends)) return false;
    return rattle_write_no_sigpipe(ends[1], "text", 4) == 4 && is_pending() && is_read(ends[0], "text");
}

/* Waits until a pipe is full, and closes it. */
static void *leaves_a_full_pipe(void *end) {
    int fd = *(int *)end, size = fcntl(fd, F_GETPIPE_SZ);
    for (int unread = 0; unread < size; usleep(1000))
        if (ioctl(fd, FIONREAD, &unread)) break;
    close(fd);
    return NULL;
}

/* A part is written, then nobody reads any more: the count comes back, and no signal. */
static bool no_signal_after_a_part(void) {
    static uint8_t many[1 << 20];
    int ends[2];
    pthread_t other;
    if (pipe(ends)) return false;
    ssize_t size = fcntl(ends[1], F_GETPIPE_SZ);
    if (pthread_create(&other, NULL, leaves_a_full_pipe, &ends[0])) return false;
    ssize_t written = rattle_write_no_sigpipe(ends[1], many, sizeof many);
    return written == size && !pthread_join(other, NULL) && !is_pending();
}

static bool other_errors_of_writes(void) {
    int ends[2];
    if (pipe2(ends, O_NONBLOCK)) return false;
    static uint8_t many[1 << 20];
    ssize_t size = fcntl(ends[1], F_GETPIPE_SZ);
    if (!has_error(rattle_write_no_sigpipe(-1, "a", 1), EBADF) || rattle_write_no_sigpipe(ends[1], "", 0)) return false;
    return rattle_write_no_sigpipe(ends[1], many, sizeof many) == size && has_error(rattle_write_no_sigpipe(ends[1], "a", 1), EAGAIN);
}

/* Locks. */

static int one, other;

/* A file that is open twice. */
static bool open_twice(void) {
    char name[] = "/tmp/cases-of-system-XXXXXX";
    one = mkstemp(name);
    other = open(name, O_RDWR);
    return one >= 0 && other >= 0 && !unlink(name);
}

static bool locks_exclude_each_other(void) {
    if (!open_twice() || rattle_lock_range(one, KIND(F_WRLCK), 10, 10)) return false;
    if (!has_error(rattle_lock_range(other, KIND(F_WRLCK), 19, 1), EAGAIN)) return false;
    if (!has_error(rattle_lock_range(other, KIND(F_RDLCK), 10, 1), EAGAIN)) return false;
    if (rattle_lock_range(other, KIND(F_WRLCK), 20, 5) || rattle_lock_range(other, KIND(F_WRLCK), 0, 10)) return false;
    return !rattle_lock_range(one, KIND(F_UNLCK), 10, 10) && !rattle_lock_range(other, KIND(F_WRLCK), 0, 100);
}

static bool shared_locks(void) {
    if (!open_twice() || rattle_lock_range(one, KIND(F_RDLCK), 0, 10) || rattle_lock_range(other, KIND(F_RDLCK), 0, 10)) return false;
    return has_error(rattle_lock_range(other, KIND(F_WRLCK), 0, 10), EAGAIN) && !rattle_lock_range(one, KIND(F_UNLCK), 0, 10) &&
           !rattle_lock_range(other, KIND(F_WRLCK), 0, 10);
}

/* The range counts from the file's start, wherever the position stands, and in 64 bits. */
static bool ranges_far_away(void) {
    int64_t far = INT64_C(1) << 40;
    if (!open_twice() || lseek(one, 1000, SEEK_SET) != 1000 || rattle_lock_range(one, KIND(F_WRLCK), far, 10)) return false;
    if (!has_error(rattle_lock_range(other, KIND(F_WRLCK), far + 9, far), EAGAIN)) return false;
    if (rattle_lock_range(other, KIND(F_WRLCK), 10, far - 10)) return false;
    return !rattle_lock_range(one, KIND(F_WRLCK), 0, 10) && has_error(rattle_lock_range(other, KIND(F_WRLCK), 0, far), EAGAIN);
}

/* A lock of the process would go with the first descriptor of the file that is closed. */
static bool locks_of_the_open_file(void) {
    if (!open_twice() || rattle_lock_range(one, KIND(F_WRLCK), 0, 10) || close(dup(one)) || close(open("/proc/self/exe", O_RDONLY))) return false;
    return has_error(rattle_lock_range(other, KIND(F_WRLCK), 0, 10), EAGAIN) && !close(one) && !rattle_lock_range(other, KIND(F_WRLCK), 0, 10);
}

static bool bad_locks(void) {
    int reader = open("/proc/self/exe", O_RDONLY);
    if (!open_twice() || !has_error(rattle_lock_range(-1, KIND(F_WRLCK), 0, 1), EBADF)) return false;
    if (!has_error(rattle_lock_range(reader, KIND(F_WRLCK), 0, 1), EBADF)) return false;
    if (!has_error(rattle_lock_range(one, KIND(F_RDLCK), -1, 1), EINVAL)) return false;
    return has_error(rattle_lock_range(one, KIND(F_WRLCK), INT64_MAX, 2), EOVERFLOW) && has_error(rattle_lock_range(one, KIND(9), 0, 1), EINVAL);
}

/* Sets of descriptors. */

/* A set with so many counters, all ready, of which each has its own number; none of them fits into 32 bits. */
static uint64_t data_of(int at) { return UINT64_C(0xfedcba9800000000) + (uint64_t)at; }

static int set_of(int count) {
    int epoll = epoll_create1(0);
    for (int at = 0; at < count; at++)
        if (rattle_epoll_ctl(epoll, EPOLL_CTL_ADD, eventfd(1, 0), EPOLLIN | EPOLLET, data_of(at))) return -1;
    return epoll;
}

/* Of so many that are ready, those for which there is room come, each once, and what is behind them stays as it was. */
static bool come(int count, int room) {
    static struct ready ready[300];
    bool seen[300] = {false};
    int wanted = count < room ? count : room;
    memset(ready, 0xee, sizeof ready);
    if (rattle_epoll_wait(set_of(count), ready, (size_t)room, 0) != wanted) return false;
    for (int at = 0; at < wanted; at++) {
        uint64_t data = ready[at].data - data_of(0);
        if (ready[at].events != EPOLLIN || data >= (uint64_t)count || seen[data]) return false;
        seen[data] = true;
    }
    return are_all((void *)(ready + wanted), 0xee, sizeof ready - sizeof *ready * (size_t)wanted);
}

static bool entries_that_are_ready(void) {
    return come(0, 1) && come(1, 1) && come(1, 9) && come(3, 3) && come(3, 2) && come(9, 1) && come(64, 64) && come(65, 65) && come(256, 300);
}

static bool no_room_for_entries(void) {
    struct ready ready[1];
    int epoll = set_of(1);
    return has_error(rattle_epoll_wait(epoll, ready, 0, 0), EINVAL) && has_error(rattle_epoll_wait(-1, ready, 1, 0), EBADF);
}

static bool entries_change(void) {
    struct ready ready[2];
    int epoll = epoll_create1(0), fd = eventfd(1, 0);
    if (rattle_epoll_ctl(epoll, EPOLL_CTL_ADD, fd, EPOLLIN, 1) || rattle_epoll_ctl(epoll, EPOLL_CTL_MOD, fd, EPOLLOUT, UINT64_MAX)) return false;
    for (int turn = 0; turn < 2; turn++)
        if (rattle_epoll_wait(epoll, ready, 2, 0) != 1 || ready[0].events != EPOLLOUT || ready[0].data != UINT64_MAX) return false;
    return !rattle_epoll_ctl(epoll, EPOLL_CTL_DEL, fd, 0, 0) && !rattle_epoll_wait(epoll, ready, 2, 0);
}

static bool bad_entries(void) {
    int epoll = epoll_create1(0), fd = eventfd(0, 0);
    if (!has_error(rattle_epoll_ctl(epoll, EPOLL_CTL_MOD, fd, 0, 0), ENOENT) || rattle_epoll_ctl(epoll, EPOLL_CTL_ADD, fd, 0, 0)) return false;
    return has_error(rattle_epoll_ctl(epoll, EPOLL_CTL_ADD, fd, 0, 0), EEXIST) && has_error(rattle_epoll_ctl(epoll, EPOLL_CTL_ADD, -1, 0, 0), EBADF);
}

/* So many milliseconds, and no fewer. */
static bool waits_its_time(void) {
    struct ready ready[1];
    struct timespec began, ended;
    clock_gettime(CLOCK_MONOTONIC, &began);
    ssize_t count = rattle_epoll_wait(epoll_create1(0), ready, 1, 200);
    clock_gettime(CLOCK_MONOTONIC, &ended);
    int64_t took = (ended.tv_sec - began.tv_sec) * 1000 + (ended.tv_nsec - began.tv_nsec) / 1000000;
    return !count && took >= 199;
}

/* Hosts; each is an address or stands in /etc/hosts, or is refused by the C library, so that nothing is asked of the network. */

static bool is_found(const char *name, const void *address, uint32_t length) {
    struct raw_address found[3];
    memset(found, 0xee, sizeof found);
    if (rattle_lookup_host(name, found, 3) != 1 || found->length != length || memcmp(found->bytes, address, length)) return false;
    return are_all(found->bytes + length, 0xee, sizeof found->bytes - length) && are_all((void *)(found + 1), 0xee, sizeof found - sizeof *found);
}

static bool addresses_are_found(void) {
    struct sockaddr_in four = {.sin_family = AF_INET, .sin_addr.s_addr = htonl(0x7f000102)};
    struct sockaddr_in6 six = {.sin6_family = AF_INET6, .sin6_addr = IN6ADDR_LOOPBACK_INIT};
    return is_found("127.0.1.2", &four, sizeof four) && is_found("::1", &six, sizeof six);
}

static bool name_is_found(void) {
    struct raw_address found[9];
    ssize_t count = rattle_lookup_host("localhost", found, 9);
    for (ssize_t at = 0; at < count; at++) {
        struct sockaddr_storage address;
        memcpy(&address, found[at].bytes, sizeof address);
        if (found[at].length != (address.ss_family == AF_INET ? sizeof(struct sockaddr_in) : sizeof(struct sockaddr_in6))) return false;
        if (((struct sockaddr_in *)&address)->sin_port) return false;
    }
    return count > 0 && count <= 9;
}

static bool room_for_addresses(void) {
    struct raw_address found[2];
    memset(found, 0xee, sizeof found);
    if (rattle_lookup_host("127.0.0.1", found, 0) || !are_all((void *)found, 0xee, sizeof found)) return false;
    return rattle_lookup_host("localhost", found, 1) == 1 && are_all((void *)(found + 1), 0xee, sizeof *found);
}

static bool no_such_host(void) {
    struct raw_address found[1];
    char name[300];
    memset(name, 'a', sizeof name - 1);
    name[sizeof name - 1] = 0;
    ssize_t code = rattle_lookup_host(name, found, 1);
    return code == EAI_NONAME || code == EAI_AGAIN || code == EAI_FAIL || code == EAI_NODATA;
}

static const struct {
    const char *of, *what;
    bool (*holds)(void);
} CASES[] = {
    {"alloc", "a block of each size and alignment is there, at a multiple of 16", block_has_its_bytes},
    {"alloc", "blocks of no bytes are there, and differ", blocks_of_nothing_differ},
    {"alloc", "a refused block: false, a pointer that is not null, ENOMEM", refused_block},
    {"alloc", "the flag in the returned struct is a byte, 1 or 0", flag_is_0_or_1},
    {"realloc", "larger and smaller blocks keep their first bytes", resized_block_keeps_its_front},
    {"realloc", "a block that is to have no bytes is there", resized_to_nothing},
    {"realloc", "refused: false, a pointer that is not null, ENOMEM, the block as it was", refused_resize_leaves_the_block},
    {"dealloc", "errno stays", dealloc_leaves_errno},
    {"errno, set_errno", "it is that of the C library", errno_is_the_systems},
    {"errno, set_errno", "each thread has its own", errno_is_of_a_thread},
    {"arg_count", "the program's own name is counted", words_are_counted},
    {"arg", "each word, in room for less, for itself, for more", words_are_those_given},
    {"arg", "no such word: -1, and nothing is written", no_such_word},
    {"env", "each value, also an empty one, in room for less, for itself, for more", values_are_those_set},
    {"env", "no such variable: -1, and nothing is written", no_such_variable},
    {"env_at", "the entries in their order, in room for less, for themselves, for more; then -1", entries_in_their_order},
    {"env_at", "without any environment: -1", no_environment},
    {"open_dir_at", "from a directory, from the working one, by a whole path, and over a link that a slash follows", directories_are_opened},
    {"open_dir_at", "the descriptor is for reading, and is closed by exec", directory_is_for_reading},
    {"open_dir_at", "ENOTDIR of a file and of a link, ENOENT, EBADF", no_directory},
    {"set_nonblocking", "on and off, whatever stands beside the bool", waits_or_not},
    {"set_nonblocking", "each descriptor of the open file has it", of_each_duplicate},
    {"set_nonblocking", "no such descriptor: EBADF", nonblocking_of_none},
    {"set_thread_name", "the bytes before the first 0, fifteen at most", threads_have_names},
    {"write_parts", "four parts in their order, to a pipe and to a socket", parts_in_their_order},
    {"write_parts", "four parts of no bytes, at no address", parts_of_nothing},
    {"write_parts", "ENOTSOCK of a pipe, EBADF", parts_to_no_socket},
    {"write_parts", "EPIPE of a socket that nobody reads, without SIGPIPE", parts_that_nobody_reads},
    {"write_parts", "as much as there is room for, then EAGAIN", parts_that_fit_in_part},
    {"write_parts, write_no_sigpipe", "EINTR comes back", interrupted_parts},
    {"lock_range", "an exclusive lock keeps others out of its range and of no other, until it is unlocked", locks_exclude_each_other},
    {"lock_range", "shared locks keep an exclusive one out", shared_locks},
    {"lock_range", "the range counts from the file's start, in 64 bits", ranges_far_away},
    {"lock_range", "the lock is that of the open file", locks_of_the_open_file},
    {"lock_range", "EBADF, EINVAL, EOVERFLOW", bad_locks},
    {"epoll_ctl, epoll_wait", "entries in the caller's layout, as many as there is room for, nothing behind them", entries_that_are_ready},
    {"epoll_wait", "EINVAL without room, EBADF", no_room_for_entries},
    {"epoll_ctl", "an entry comes again and again, changes, and goes", entries_change},
    {"epoll_ctl", "ENOENT, EEXIST, EBADF", bad_entries},
    {"epoll_wait", "it waits as long as it is told", waits_its_time},
    {"epoll_wait", "EINTR comes back", interrupted_wait},
    {"write_no_sigpipe", "EPIPE, and the process lives", no_signal_by_default},
    {"write_no_sigpipe", "EPIPE, and a handler is not called", no_signal_where_one_is_taken},
    {"write_no_sigpipe", "EPIPE where SIGPIPE is ignored", no_signal_where_it_is_ignored},
    {"write_no_sigpipe", "EPIPE where SIGPIPE is blocked, and it is not pending afterwards", no_signal_where_it_is_blocked},
    {"write_no_sigpipe", "the signals that are blocked are those of before", mask_is_as_before},
    {"write_no_sigpipe", "EPIPE, and a SIGPIPE that was pending before stays", signal_pending_before_stays},
    {"write_no_sigpipe", "a whole write leaves a SIGPIPE that was pending before", whole_write_leaves_a_pending_signal},
    {"write_no_sigpipe", "a part is written, then nobody reads: the count, and the process lives", no_signal_after_a_part},
    {"write_no_sigpipe", "EBADF, EAGAIN, a part", other_errors_of_writes},
    {"lookup_host", "addresses of both kinds, with port 0, nothing behind them", addresses_are_found},
    {"lookup_host", "a name", name_is_found},
    {"lookup_host", "as many as there is room for, also none", room_for_addresses},
    {"lookup_host", "no such host: a negative code", no_such_host},
};

/* Plays a case in a process of its own, which is ended after ten seconds. */
static bool is_held(bool (*holds)(void)) {
    int status = -1;
    pid_t child = fork();
    if (!child) {
        struct rlimit no_dump = {0, 0};
        setrlimit(RLIMIT_CORE, &no_dump);
        _exit(holds() ? 0 : 1);
    }
    for (int turn = 0; turn < 1000 && child > 0 && !waitpid(child, &status, WNOHANG); turn++) usleep(10000);
    if (child > 0 && status == -1) kill(child, SIGKILL), waitpid(child, &status, 0);
    return status == 0;
}

int main(int count, char **words) {
    bool is_list = count == 2 && !strcmp(words[1], "--list");
    int wrong = 0;
    given = words;
    setvbuf(stdout, NULL, _IONBF, 0);
    for (size_t at = 0; at < sizeof CASES / sizeof *CASES; at++) {
        const char *came = is_list ? "" : is_held(CASES[at].holds) ? "holds " : "WRONG ";
        wrong += *came == 'W';
        printf("%srattle_%s: %s\n", came, CASES[at].of, CASES[at].what);
    }
    return wrong ? 1 : 0;
}
