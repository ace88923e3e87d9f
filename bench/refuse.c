/* Preloaded into a program: at each request for memory it forks, refuses the request in the child and grants it in the
   parent, so that one run tries them all. What the child writes to standard output, and its status, are compared with
   the outcomes that are allowed; an outcome that is none of them is reported with the number of the request.

   REFUSE   one: the child is refused this request; all: this one and all that follow
   EVERY    a number k: only each k-th request is tried
   ALLOWED  a file of outcomes (what is written to standard error counts too), each a line 'STATUS LENGTH', a line feed, and so many bytes
   REPORT   a file that is appended to: 'other REQUEST STATUS LENGTH', a line feed and so many bytes (a status above 255
            is that of a signal); at the end 'done REQUESTS TRIED', and how often each allowed outcome came

   Without REFUSE it fails a read or a write instead: FAIL_READ, FAIL_WRITE, SHORT_READ and SHORT_WRITE hold the number
   of the call, from 1, that fails or moves one byte; where that happened, 'met' is appended to REPORT.
   Nothing here takes memory by the calls that it replaces. */
#define _GNU_SOURCE
#include <errno.h>
#include <fcntl.h>
#include <signal.h>
#include <stddef.h>
#include <stdio.h>
#include <stdlib.h>
#include <string.h>
#include <sys/mman.h>
#include <sys/stat.h>
#include <sys/wait.h>
#include <unistd.h>

extern void *__libc_malloc(size_t);
extern void *__libc_calloc(size_t, size_t);
extern void *__libc_realloc(void *, size_t);
extern void *__libc_memalign(size_t, size_t);
extern ssize_t __read(int, void *, size_t);
extern ssize_t __write(int, const void *, size_t);

enum { OUTCOMES = 64, SECONDS = 60, ROOM = 1 << 24 };

static struct outcome {
    int status;
    size_t length;
    const char *bytes;
    long count;
} allowed[OUTCOMES];

static int outcomes, report = -1, output = -1, trying, is_child, refuses_all, refuses_now;
static long requests, tried, every = 1;
static long reads, writes, fail_read, fail_write, short_read, short_write;
/* standard input as a whole, and how much of it was read */
static char *given;
static size_t given_length, given_at;
/* what the parent wrote to standard output */
static char *written;
static size_t written_length;

static long number(const char *name) {
    const char *text = getenv(name);
    return text ? atol(text) : 0;
}

static char *pages(size_t length) {
    char *got = mmap(NULL, length, PROT_READ | PROT_WRITE, MAP_PRIVATE | MAP_ANONYMOUS | MAP_NORESERVE, -1, 0);
    if (got == MAP_FAILED)
        _exit(99);
    return got;
}

static void put(int file, const char *bytes, size_t length) {
    while (length) {
        ssize_t took = __write(file, bytes, length);
        if (took <= 0)
            _exit(98);
        bytes += took;
        length -= took;
    }
}

static size_t whole(int file, char *into, size_t room) {
    size_t length = 0;
    ssize_t got;
    while (length < room && (got = __read(file, into + length, room - length)) > 0)
        length += got;
    return length;
}

static void read_allowed(const char *name) {
    int file = open(name, O_RDONLY);
    char *at = pages(ROOM), *end = at + whole(file, at, ROOM);
    close(file);
    while (at < end && outcomes < OUTCOMES) {
        struct outcome *it = &allowed[outcomes++];
        it->status = strtol(at, &at, 10);
        it->length = strtol(at, &at, 10);
        it->bytes = ++at;
        at += it->length;
    }
}

__attribute__((constructor)) static void begin(void) {
    const char *name = getenv("REPORT"), *how = getenv("REFUSE");
    fail_read = number("FAIL_READ");
    fail_write = number("FAIL_WRITE");
    short_read = number("SHORT_READ");
    short_write = number("SHORT_WRITE");
    if (name)
        report = open(name, O_WRONLY | O_CREAT | O_APPEND, 0600);
    if (!how)
        return;
    refuses_all = !strcmp(how, "all");
    if (number("EVERY") > 0)
        every = number("EVERY");
    read_allowed(getenv("ALLOWED"));
    given = pages(ROOM);
    given_length = whole(0, given, ROOM);
    written = pages(ROOM);
    output = memfd_create("output", 0);
    trying = 1;
}

/* Compares what a child did with what is allowed. */
static void judge(int ended) {
    static char bytes[1 << 20];
    char line[100];
    struct stat told;
    int status = WIFEXITED(ended) ? WEXITSTATUS(ended) : 256 + WTERMSIG(ended);
    fstat(output, &told);
    size_t length = (size_t)told.st_size < sizeof bytes ? (size_t)told.st_size : sizeof bytes;
    length = pread(output, bytes, length, 0);
    for (int i = 0; i < outcomes; i++)
        if (allowed[i].status == status && allowed[i].length == length && !memcmp(allowed[i].bytes, bytes, length)) {
            allowed[i].count++;
            return;
        }
    put(report, line, snprintf(line, sizeof line, "other %ld %d %zu\n", requests, status, length));
    put(report, bytes, length);
    put(report, "\n", 1);
}

/* Whether this request is refused: in a child that is made for it. */
static int is_refused(void) {
    if (is_child)
        return refuses_now;
    if (!trying || ++requests % every)
        return 0;
    tried++;
    ftruncate(output, 0);
    lseek(output, 0, SEEK_SET);
    put(output, written, written_length);
    pid_t child = fork();
    if (child < 0)
        _exit(97);
    if (child) {
        int ended;
        while (waitpid(child, &ended, 0) < 0 && errno == EINTR)
            ;
        judge(ended);
        return 0;
    }
    is_child = 1;
    refuses_now = refuses_all;
    alarm(SECONDS);
    dup2(output, 1);
    dup2(output, 2);
    return 1;
}

__attribute__((destructor)) static void end(void) {
    char line[100];
    if (!trying || is_child)
        return;
    trying = 0;
    put(report, line, snprintf(line, sizeof line, "done %ld %ld", requests, tried));
    for (int i = 0; i < outcomes; i++)
        put(report, line, snprintf(line, sizeof line, " %ld", allowed[i].count));
    put(report, "\n", 1);
}

static void *refused(void) {
    errno = ENOMEM;
    return NULL;
}

void *malloc(size_t size) { return is_refused() ? refused() : __libc_malloc(size); }

void *calloc(size_t count, size_t size) { return is_refused() ? refused() : __libc_calloc(count, size); }

void *realloc(void *old, size_t size) { return is_refused() ? refused() : __libc_realloc(old, size); }

void *memalign(size_t alignment, size_t size) { return is_refused() ? refused() : __libc_memalign(alignment, size); }

void *aligned_alloc(size_t alignment, size_t size) { return memalign(alignment, size); }

int posix_memalign(void **result, size_t alignment, size_t size) {
    void *made = memalign(alignment, size);
    if (!made)
        return ENOMEM;
    *result = made;
    return 0;
}

/* Whether this is the call whose number is asked for. */
static int is_met(long at, long asked) {
    if (at != asked)
        return 0;
    put(report, "met\n", 4);
    return 1;
}

ssize_t read(int file, void *into, size_t size) {
    if (file != 0)
        return __read(file, into, size);
    if (given) {
        size_t left = given_length - given_at, got = size < left ? size : left;
        memcpy(into, given + given_at, got);
        given_at += got;
        return got;
    }
    ++reads;
    if (is_met(reads, fail_read)) {
        errno = EIO;
        return -1;
    }
    return __read(file, into, size > 1 && is_met(reads, short_read) ? 1 : size);
}

ssize_t write(int file, const void *from, size_t size) {
    if (file != 1)
        return __write(file, from, size);
    if (trying && !is_child && written_length + size <= ROOM) {
        memcpy(written + written_length, from, size);
        written_length += size;
    }
    ++writes;
    if (is_met(writes, fail_write)) {
        errno = EIO;
        return -1;
    }
    return __write(file, from, size > 1 && is_met(writes, short_write) ? 1 : size);
}
