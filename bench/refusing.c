/* Loaded before a program (LD_PRELOAD): refuses some of its requests for memory, and counts them.

   A request is a call of malloc, calloc, realloc, aligned_alloc, memalign or posix_memalign, or the start of a thread, for
   which the C library maps a stack. They are numbered from 1 on, in the order in which they come, from the moment at which
   `main` begins: what the loader and the C library ask for before that is not the program's, and is neither counted nor
   refused. REFUSE_FROM and REFUSE_TO are the first and the last number that is refused. A refused request answers as the C
   library does: NULL with ENOMEM, and EAGAIN for a thread.

   REFUSE_REPORT names a file of sizeof(struct report) bytes, which is mapped, so that the counts stand there however the
   program ends. When `main` returns or `_exit` is called, the other threads and the open sockets are counted too. A
   thread that has returned is gone from the system's list a little later, so it is waited for, but not for longer than
   MILLISECONDS. */
#define _GNU_SOURCE
#include <dirent.h>
#include <dlfcn.h>
#include <errno.h>
#include <fcntl.h>
#include <pthread.h>
#include <stdatomic.h>
#include <stdlib.h>
#include <sys/mman.h>
#include <sys/stat.h>
#include <sys/syscall.h>
#include <unistd.h>

#define MILLISECONDS 500

extern void *__libc_malloc(size_t), *__libc_calloc(size_t, size_t), *__libc_realloc(void *, size_t);
extern void *__libc_memalign(size_t, size_t);

struct report {
  _Atomic long asked, refused, ended, threads, sockets;
};

static struct report nowhere, *report = &nowhere;
static long first, last;
static _Atomic int counts;
static int (*program)(int, char **, char **);

static int is_refused(void) {
  if (!counts)
    return 0;
  long number = ++report->asked;
  if (number < first || number > last)
    return 0;
  report->refused++;
  return 1;
}

void *malloc(size_t size) {
  if (!is_refused())
    return __libc_malloc(size);
  errno = ENOMEM;
  return NULL;
}

void *calloc(size_t count, size_t size) {
  if (!is_refused())
    return __libc_calloc(count, size);
  errno = ENOMEM;
  return NULL;
}

void *realloc(void *old, size_t size) {
  if (!is_refused())
    return __libc_realloc(old, size);
  errno = ENOMEM;
  return NULL;
}

void *memalign(size_t align, size_t size) {
  if (!is_refused())
    return __libc_memalign(align, size);
  errno = ENOMEM;
  return NULL;
}

void *aligned_alloc(size_t align, size_t size) { return memalign(align, size); }

int posix_memalign(void **out, size_t align, size_t size) {
  void *found = memalign(align, size);
  if (found)
    *out = found;
  return found ? 0 : ENOMEM;
}

int pthread_create(pthread_t *thread, const pthread_attr_t *how, void *(*start)(void *), void *with) {
  int (*real)(pthread_t *, const pthread_attr_t *, void *(*)(void *), void *) = dlsym(RTLD_NEXT, "pthread_create");
  return is_refused() ? EAGAIN : real(thread, how, start, with);
}

static long threads_besides(void) {
  long found = -1;
  DIR *tasks = opendir("/proc/self/task");
  for (struct dirent *each; tasks && (each = readdir(tasks));)
    found += each->d_name[0] != '.';
  if (tasks)
    closedir(tasks);
  return found;
}

/* Those that an emulator has beside the program's, before its `main` begins; without one there are none. */
static long threads_of_emulator;

static void end(void) {
  counts = 0;
  for (int wait = 0; threads_besides() > threads_of_emulator && wait < MILLISECONDS; wait++)
    usleep(1000);
  report->threads = threads_besides() - threads_of_emulator;
  for (int file = 3; file < 1024; file++) {
    struct stat about;
    report->sockets += !fstat(file, &about) && S_ISSOCK(about.st_mode);
  }
  report->ended = 1;
}

void _exit(int status) {
  end();
  for (;;)
    syscall(SYS_exit_group, status);
}

static int begin(int count, char **words, char **environment) {
  threads_of_emulator = threads_besides();
  counts = 1;
  int status = program(count, words, environment);
  end();
  return status;
}

static long number_of(const char *name) { return getenv(name) ? atol(getenv(name)) : 0; }

int __libc_start_main(int (*main)(int, char **, char **), int count, char **words, void (*init)(void), void (*fini)(void),
                      void (*loader_fini)(void), void *stack) {
  int (*real)(int (*)(int, char **, char **), int, char **, void (*)(void), void (*)(void), void (*)(void), void *) =
      dlsym(RTLD_NEXT, "__libc_start_main");
  int file = getenv("REFUSE_REPORT") ? open(getenv("REFUSE_REPORT"), O_RDWR) : -1;
  if (file >= 0) {
    void *mapped = mmap(NULL, sizeof(struct report), PROT_READ | PROT_WRITE, MAP_SHARED, file, 0);
    if (mapped != MAP_FAILED)
      report = mapped;
    close(file);
  }
  first = number_of("REFUSE_FROM");
  last = number_of("REFUSE_TO");
  program = main;
  return real(begin, count, words, init, fini, loader_fini, stack);
}
