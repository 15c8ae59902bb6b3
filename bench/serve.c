/* Makes a program answer many lists of words in one process.
 *
 * The library stands before the C library, and is called in place of the program's `main`. It reads one list of words
 * after the other from standard input, as many as the process was started with, and for each it makes a child in which
 * `main` is called, with these words in place of the others. What the child writes goes to memory, and is told on standard
 * output with the child's status and time.
 *
 * A request is a number of 32 bits, how many bytes follow, and the words, each with a zero behind it. An answer is six
 * numbers of 32 bits and the bytes that they count: the status, or 256 and the number of the signal that ended the child;
 * microseconds of the processor; KiB of memory at most; how many bytes were written to standard output; how many of them
 * are told; how many were written to standard error, of which none is told.
 *
 * A child that takes more than SERVE_SECONDS of the processor, or sixty times that of the clock, is ended by a signal.
 */
#define _GNU_SOURCE
#include <dlfcn.h>
#include <fcntl.h>
#include <stdint.h>
#include <stdlib.h>
#include <string.h>
#include <sys/mman.h>
#include <sys/resource.h>
#include <sys/time.h>
#include <sys/wait.h>
#include <unistd.h>

enum { MOST_BYTES = 65536, MOST_TOLD = 1 << 28 };

typedef int (*Main)(int, char **, char **);
typedef int (*Start)(Main, int, char **, void (*)(void), void (*)(void), void (*)(void), void *);

static Main program;
static int asked, answers, outputs, errors, seconds = 1;

static int takes(int file, void *to, size_t bytes) {
    for (size_t done = 0; done < bytes;) {
        ssize_t more = read(file, (char *)to + done, bytes - done);
        if (more <= 0) return 0;
        done += more;
    }
    return 1;
}

static void gives(int file, const void *from, size_t bytes) {
    for (size_t done = 0; done < bytes;) {
        ssize_t more = write(file, (const char *)from + done, bytes - done);
        if (more <= 0) _exit(1);
        done += more;
    }
}

static void empty(int file) {
    if (ftruncate(file, 0) || lseek(file, 0, SEEK_SET)) _exit(1);
}

/* The child: the program, its output in memory and its time limited. */
static void answer(int words, char **word, char **environment) {
    struct itimerval limit = {.it_value = {.tv_sec = seconds}};
    setitimer(ITIMER_PROF, &limit, 0);
    alarm(60 * seconds);
    dup2(open("/dev/null", O_RDONLY), 0);
    dup2(outputs, 1);
    dup2(errors, 2);
    close(asked), close(answers), close(outputs), close(errors);
    exit(program(words, word, environment));
}

static uint32_t microseconds(const struct rusage *used) {
    return (used->ru_utime.tv_sec + used->ru_stime.tv_sec) * 1000000 + used->ru_utime.tv_usec + used->ru_stime.tv_usec;
}

static void tell(int status, const struct rusage *used) {
    uint32_t written = lseek(outputs, 0, SEEK_END), told = written < MOST_TOLD ? written : MOST_TOLD;
    uint32_t faulty = lseek(errors, 0, SEEK_END);
    uint32_t ended = WIFSIGNALED(status) ? 256 + WTERMSIG(status) : WEXITSTATUS(status);
    uint32_t head[6] = {ended, microseconds(used), used->ru_maxrss, written, told, faulty};
    gives(answers, head, sizeof head);
    if (told) {
        void *text = mmap(0, told, PROT_READ, MAP_SHARED, outputs, 0);
        gives(answers, text, told);
        munmap(text, told);
    }
}

static int serve(int words, char **word, char **environment) {
    static char bytes[MOST_BYTES];
    uint32_t size;
    asked = dup(0), answers = dup(1), outputs = memfd_create("output", 0), errors = memfd_create("errors", 0);
    while (takes(asked, &size, sizeof size)) {
        if (size > MOST_BYTES || !takes(asked, bytes, size)) return 1;
        char *next = bytes;
        for (int i = 1; i < words; i++) {
            word[i] = next;
            next += strlen(next) + 1;
        }
        empty(outputs), empty(errors);
        pid_t child = fork();
        if (child < 0) return 1;
        if (!child) answer(words, word, environment);
        int status;
        struct rusage used;
        wait4(child, &status, 0, &used);
        tell(status, &used);
    }
    return 0;
}

int __libc_start_main(Main main, int words, char **word, void (*begin)(void), void (*end)(void), void (*late)(void),
                      void *stack) {
    Start start = (Start)dlsym(RTLD_NEXT, "__libc_start_main");
    program = main;
    if (getenv("SERVE_SECONDS")) seconds = atoi(getenv("SERVE_SECONDS"));
    return start(serve, words, word, begin, end, late, stack);
}
