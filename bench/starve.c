/* Refuses one call of the system to copies of a running program.
 *
 * The library stands before the C library. In the program's `main`, at each call that asks for memory, opens a file, reads or
 * writes, the program is copied for each way in which that call may be refused: the copy is refused it, and goes on to its
 * end with nothing else refused; the program itself waits, and goes on as if nothing had been. Before `main` it is copied for
 * each of some limits of its address space. So one run tries each call that it makes.
 *
 * What a copy does goes to the file of number STARVE_TO: five numbers of 32 bits, which are the way, how many calls of this
 * kind were made before or the bytes of the limit over 4,096, the status, or 256 and the number of the signal that ended the
 * copy, how many bytes were written to standard output, and how many to standard error; and then the bytes of the former.
 * Standard output must be a file that can be read again from its beginning.
 *
 * Of more than STARVE_MOST calls of one kind each 1,000th is tried. What takes more than STARVE_SECONDS of the processor
 * is ended by a signal.
 */
#define _GNU_SOURCE
#include <dlfcn.h>
#include <errno.h>
#include <fcntl.h>
#include <stdarg.h>
#include <stdint.h>
#include <stdio.h>
#include <stdlib.h>
#include <string.h>
#include <sys/mman.h>
#include <sys/resource.h>
#include <sys/sendfile.h>
#include <sys/time.h>
#include <sys/wait.h>
#include <unistd.h>

enum way { NONE, ALLOC, OPEN, READ, SHORT_READ, INTERRUPTED_READ, WRITE, SHORT_WRITE, INTERRUPTED_WRITE, EMPTY_WRITE, SPACE };
enum { FILES = 64, EACH = 1000, PAGE = 4096 };

typedef int (*Main)(int, char **, char **);
typedef int (*Start)(Main, int, char **, void (*)(void), void (*)(void), void (*)(void), void *);

#define NEXT(type, name, args) static type(*next) args; if (!next) next = dlsym(RTLD_NEXT, #name)
extern void *__libc_malloc(size_t);
extern void *__libc_calloc(size_t, size_t);
extern void *__libc_realloc(void *, size_t);
extern void *__libc_memalign(size_t, size_t);
extern int __open(const char *, int, ...);
extern ssize_t __write(int, const void *, size_t);

static Main program;
/* Whether calls are tried: in `main` of the program, and in no copy. */
static int is_on;
static int told, outputs, errors, seconds;
static uint32_t most, calls[SPACE + 1];

static int number(const char *name, int otherwise) {
    const char *value = getenv(name);
    return value ? atoi(value) : otherwise;
}

static void gives(const void *from, size_t bytes) {
    for (size_t done = 0; done < bytes;) {
        ssize_t more = __write(told, (const char *)from + done, bytes - done);
        if (more <= 0) _exit(1);
        done += more;
    }
}

/* Gives the copy each open file anew, so that what it reads is not lost to the program. */
static void open_anew(void) {
    for (int file = 3; file < FILES; file++) {
        off_t at = lseek(file, 0, SEEK_CUR);
        char name[32];
        if (at < 0 || file == outputs || file == errors) continue;
        snprintf(name, sizeof name, "/proc/self/fd/%d", file);
        int anew = __open(name, O_RDONLY);
        lseek(anew, at, SEEK_SET);
        dup2(anew, file);
        close(anew);
    }
}

/* Ends this process by a signal when it has taken so many seconds of the processor; no copy inherits it. */
static void limit_time(void) {
    struct itimerval limit = {.it_value = {.tv_sec = seconds}};
    setitimer(ITIMER_PROF, &limit, 0);
}

/* Begins a copy: its output is what the program wrote so far and what it writes itself. */
static void begin(void) {
    off_t from = 0, written = lseek(1, 0, SEEK_END);
    is_on = 0;
    open_anew();
    while (from < written && sendfile(outputs, 1, &from, written - from) > 0) {}
    dup2(outputs, 1);
    dup2(errors, 2);
    limit_time();
    alarm(60 * seconds);
}

static void tell(uint32_t way, uint32_t at, int status) {
    uint32_t written = lseek(outputs, 0, SEEK_END), faulty = lseek(errors, 0, SEEK_END);
    uint32_t ended = WIFSIGNALED(status) ? 256 + WTERMSIG(status) : WEXITSTATUS(status);
    uint32_t head[5] = {way, at, ended, written, faulty};
    gives(head, sizeof head);
    if (written) {
        void *text = mmap(0, written, PROT_READ, MAP_SHARED, outputs, 0);
        gives(text, written);
        munmap(text, written);
    }
}

/* Whether this is the copy. The program waits for its end, and tells it. */
static int is_copy(uint32_t way, uint32_t at) {
    if (ftruncate(outputs, 0) || ftruncate(errors, 0)) _exit(1);
    lseek(outputs, 0, SEEK_SET), lseek(errors, 0, SEEK_SET);
    pid_t copy = fork();
    if (copy < 0) _exit(1);
    if (!copy) {
        begin();
        return 1;
    }
    int status;
    while (waitpid(copy, &status, 0) < 0) {}
    tell(way, at, status);
    return 0;
}

/* The way of these in which the call is refused here, if it is: each has a copy. */
static enum way refused(enum way first, enum way last) {
    if (!is_on) return NONE;
    int saved = errno;
    uint32_t at = calls[first]++;
    for (enum way way = first; way <= last && (at < most || at % EACH == 0); way++)
        if (is_copy(way, at)) return way;
    errno = saved;
    return NONE;
}

static int has_none(void) {
    if (!refused(ALLOC, ALLOC)) return 0;
    errno = ENOMEM;
    return 1;
}

void *malloc(size_t n) { return has_none() ? 0 : __libc_malloc(n); }
void *calloc(size_t n, size_t m) { return has_none() ? 0 : __libc_calloc(n, m); }
void *realloc(void *p, size_t n) { return has_none() ? 0 : __libc_realloc(p, n); }
void *aligned_alloc(size_t a, size_t n) { return has_none() ? 0 : __libc_memalign(a, n); }
int posix_memalign(void **p, size_t a, size_t n) { return has_none() || !(*p = __libc_memalign(a, n)) ? ENOMEM : 0; }

static int failed(int why) {
    errno = why;
    return -1;
}

int open(const char *name, int flags, ...) {
    va_list more;
    va_start(more, flags);
    int mode = va_arg(more, int);
    va_end(more);
    return refused(OPEN, OPEN) ? failed(EIO) : __open(name, flags, mode);
}

ssize_t read(int file, void *to, size_t n) {
    NEXT(ssize_t, read, (int, void *, size_t));
    switch (refused(READ, INTERRUPTED_READ)) {
        case READ: return failed(EIO);
        case SHORT_READ: return next(file, to, n ? 1 : 0);
        case INTERRUPTED_READ: return failed(EINTR);
        default: return next(file, to, n);
    }
}

ssize_t write(int file, const void *from, size_t n) {
    switch (refused(WRITE, EMPTY_WRITE)) {
        case WRITE: return failed(ENOSPC);
        case SHORT_WRITE: return __write(file, from, n ? 1 : 0);
        case INTERRUPTED_WRITE: return failed(EINTR);
        case EMPTY_WRITE: return 0;
        default: return __write(file, from, n);
    }
}

static uint32_t pages_now(void) {
    char text[64] = {0};
    NEXT(ssize_t, read, (int, void *, size_t));
    int file = __open("/proc/self/statm", O_RDONLY);
    if (file < 0 || next(file, text, sizeof text - 1) <= 0) _exit(1);
    close(file);
    return atol(text);
}

/* The program, after copies of it that have so many pages more than it has at first. */
static int starved(int words, char **word, char **environment) {
    uint32_t now = pages_now();
    for (uint32_t more = 0; more < (1 << 16); more += more / 3 + 1) {
        if (!is_copy(SPACE, now + more)) continue;
        struct rlimit limit = {(rlim_t)PAGE * (now + more), RLIM_INFINITY};
        setrlimit(RLIMIT_AS, &limit);
        return program(words, word, environment);
    }
    limit_time();
    is_on = 1;
    int status = program(words, word, environment);
    is_on = 0;
    return status;
}

int __libc_start_main(Main main, int words, char **word, void (*init)(void), void (*fini)(void), void (*late)(void),
                      void *stack) {
    Start start = (Start)dlsym(RTLD_NEXT, "__libc_start_main");
    program = main;
    told = number("STARVE_TO", 2), seconds = number("STARVE_SECONDS", 10), most = number("STARVE_MOST", 10000);
    outputs = memfd_create("output", 0), errors = memfd_create("errors", 0);
    return start(starved, words, word, init, fini, late, stack);
}
