/* Tries what include/wesl.h says of its calls, and ends with 'N passed, M failed'. Its arguments are files of bundles.
 *
 * Built with -Wl,--wrap=wesl_link_bundle, so that links are counted. Each call is made on a thread with STACK bytes of stack
 * below which lies memory that may not be touched. */
#define _GNU_SOURCE
#include <pthread.h>
#include <stdio.h>
#include <string.h>
#include <sys/mman.h>

#include "wesl.h"

/* What the header says of the stack, and what a thread takes of it for itself. */
#define STACK ((size_t)1 << 20)
#define OF_THREAD ((size_t)16 << 10)

static int passed, failed, links;

static void check(int is_right, const char *what) {
    if (!is_right)
        printf("%s: failed\n", what);
    *(is_right ? &passed : &failed) += 1;
}

uint32_t __real_wesl_link_bundle(const uint8_t *, size_t, uint8_t *, size_t, size_t *);

uint32_t __wrap_wesl_link_bundle(const uint8_t *bundle, size_t length, uint8_t *buffer, size_t room, size_t *needed) {
    links++;
    return __real_wesl_link_bundle(bundle, length, buffer, room, needed);
}

struct link {
    const uint8_t *bundle;
    size_t length;
    struct wesl_buffer *line;
    uint32_t status;
};

static void *run(void *given) {
    struct link *link = given;
    link->status = wesl_link_grow(link->bundle, link->length, link->line);
    return NULL;
}

/* The status of a link on a thread with the stack that the header names; -1 where there is no such thread. */
static int status_on_thread(const uint8_t *bundle, size_t length, struct wesl_buffer *line) {
    struct link link = {bundle, length, line, 0};
    const size_t page = 65536, size = STACK + OF_THREAD;
    pthread_attr_t how;
    pthread_t thread;
    uint8_t *stack = mmap(NULL, page + size, PROT_READ | PROT_WRITE, MAP_PRIVATE | MAP_ANONYMOUS, -1, 0);
    if (stack == MAP_FAILED || mprotect(stack, page, PROT_NONE) || pthread_attr_init(&how) ||
        pthread_attr_setstack(&how, stack + page, size) || pthread_create(&thread, &how, run, &link) || pthread_join(thread, NULL))
        return -1;
    pthread_attr_destroy(&how);
    munmap(stack, page + size);
    return (int)link.status;
}

/* Whether the buffer has a line that begins so. */
static int begins(const struct wesl_buffer *line, const char *start) {
    return line->length > strlen(start) && !memcmp(line->bytes, start, strlen(start)) && line->bytes[line->length - 1] == '\n';
}

/* A text is linked, and a fault of one tells its module and its place. */
static void try_texts(void) {
    const char *bundle = "{\"root\":\"package::m\",\"eager\":true,\"modules\":[{\"path\":\"package::m\",\"unit\":\"const k=1;\"}]}";
    const char *broken = "{\"root\":\"package::m\",\"modules\":[{\"path\":\"package::m\",\"unit\":\"const k 1;\"}]}";
    const char *wanted = "{\"clash\":false,\"map\":{},\"text\":\"const k = 1;\\n\"}\n";
    const char *fault = "{\"args\":[\"expected `=`, found `1`\"],\"fault\":\"BadTree\",\"module\":\"package::m\",\"span\":[8,8]}\n";
    struct wesl_buffer line = {0};
    uint32_t status = wesl_link_texts_grow((const uint8_t *)bundle, strlen(bundle), &line);
    check(status == WESL_LINKED && line.length == strlen(wanted) && !memcmp(line.bytes, wanted, line.length), "a linked text");
    status = wesl_link_texts_grow((const uint8_t *)broken, strlen(broken), &line);
    check(status == WESL_REFUSED && line.length == strlen(fault) && !memcmp(line.bytes, fault, line.length), "a text that says no unit");
    status = wesl_link_texts_grow(NULL, 0, &line);
    check(status == WESL_REFUSED && begins(&line, "{\"args\":[],\"fault\":\"NotJson\"}"), "null for no texts");
    free(line.bytes);
}

/* A buffer that is too short has the beginning of the line, and what lies behind a line stays. */
static void try_short_buffer(void) {
    const uint8_t bundle[] = "{}";
    struct wesl_buffer line = {0};
    uint8_t part[64];
    size_t needed;
    uint32_t status = wesl_link_grow(bundle, 2, &line);
    check(status == WESL_REFUSED && begins(&line, "{\"args\":[\"\"],\"fault\":\"BadBundle\"}"), "a line");
    memset(part, 'x', sizeof part);
    status = wesl_link_bundle(bundle, 2, part, 5, &needed);
    check(status == WESL_REFUSED && needed == line.length && !memcmp(part, line.bytes, 5) && part[5] == 'x', "a short buffer");
    memset(part, 'x', sizeof part);
    wesl_link_bundle(bundle, 2, part, sizeof part, &needed);
    check(needed == line.length && !memcmp(part, line.bytes, needed) && part[needed] == 'x', "a long buffer");
    free(line.bytes);
}

/* A bundle whose line is longer than the room that a link begins with, as the names of `count` constants have the path. */
static char *long_bundle(size_t count) {
    char *text = malloc(16384 + 64 * count), *at = text;
    char name[2001];
    memset(name, 'm', 2000);
    name[2000] = 0;
    at += sprintf(at, "{\"root\":\"package::main\",\"keep\":[\"k\"],\"modules\":[");
    at += sprintf(at, "{\"path\":\"package::main\",\"unit\":{\"imports\":[");
    at += sprintf(at, "{\"path\":\"package::%s\",\"content\":{\"item\":\"c0\"}}],\"declarations\":[", name);
    at += sprintf(at, "{\"k\":\"const\",\"name\":\"k\",\"init\":\"c0\"}]}},");
    at += sprintf(at, "{\"path\":\"package::%s\",\"unit\":{\"declarations\":[", name);
    for (size_t i = 0; i < count; i++)
        at += sprintf(at, "%s{\"k\":\"const\",\"name\":\"c%zu\"}", i ? "," : "", i);
    sprintf(at, "]}}]}");
    return text;
}

/* A bundle is linked a second time only where its line is longer than all before. */
static void try_growth(void) {
    char *longer = long_bundle(300), *shorter = long_bundle(200);
    struct wesl_buffer line = {0};
    const char *bundles[] = {shorter, shorter, longer, shorter, longer};
    const int wanted[] = {2, 1, 2, 1, 1};
    for (int i = 0; i < 5; i++) {
        links = 0;
        uint32_t status = wesl_link_grow((const uint8_t *)bundles[i], strlen(bundles[i]), &line);
        check(status == WESL_LINKED && begins(&line, "{\"clash\":false,") && links == wanted[i], "links of long lines");
    }
    uint32_t status = wesl_link_grow(NULL, 0, &line);
    check(status == WESL_REFUSED && begins(&line, "{\"args\":[],\"fault\":\"NotJson\"}"), "null for no bytes");
    check(!wesl_buffer_reserve(&line, PTRDIFF_MAX) && !line.bytes && !line.room && !line.length, "no room");
    free(longer);
    free(shorter);
}

/* Declarations as deep as JSON allows and deeper, where a part is opened and closed many times round a leaf. */
static void try_depth(const char *before, const char *open, const char *leaf, const char *close, const char *after) {
    struct wesl_buffer line = {0};
    for (int levels = 40; levels < 130; levels++) {
        char *text = malloc(65536), *at = text;
        at += sprintf(at, "{\"root\":\"package::main\",\"keep\":[\"k\"],\"features\":{\"default\":\"keep\"},\"modules\":[");
        at += sprintf(at, "{\"path\":\"package::main\",\"unit\":{\"declarations\":[%s", before);
        for (int i = 0; i < levels; i++)
            at += sprintf(at, "%s", open);
        at += sprintf(at, "%s", leaf);
        for (int i = 0; i < levels; i++)
            at += sprintf(at, "%s", close);
        sprintf(at, "%s]}}]}", after);
        check(status_on_thread((const uint8_t *)text, strlen(text), &line) >= 0 && begins(&line, "{"), "a deep tree");
        free(text);
    }
    free(line.bytes);
}

/* The bundle of a file, on the stack that the header names. */
static void try_file(const char *name, struct wesl_buffer *line) {
    FILE *file = fopen(name, "rb");
    size_t length = 0, room = 1 << 20;
    uint8_t *bundle = malloc(room);
    while (file && bundle && (length += fread(bundle + length, 1, room - length, file)) == room)
        bundle = realloc(bundle, room *= 2);
    check(file && bundle && status_on_thread(bundle, length, line) >= 0 && begins(line, "{"), name);
    if (file)
        fclose(file);
    free(bundle);
}

int main(int count, char **names) {
    struct wesl_buffer line = {0};
    check(wesl_version() == WESL_VERSION, "the version");
    try_short_buffer();
    try_growth();
    try_texts();
    const char *constant = "{\"k\":\"const\",\"name\":\"k\",\"init\":";
    try_depth(constant, "{\"k\":\"paren\",\"expr\":", "true", "}", "}");
    try_depth(constant, "{\"k\":\"unary\",\"op\":\"!\",\"expr\":", "true", "}", "}");
    try_depth(constant, "{\"k\":\"call\",\"ty\":\"f\",\"args\":[", "true", "]}", "}");
    try_depth(constant, "{\"name\":\"array\",\"args\":[", "\"f32\"", "]}", "}");
    const char *function = "{\"k\":\"fn\",\"name\":\"k\",\"body\":{\"stmts\":[";
    try_depth(function, "{\"k\":\"block\",\"stmts\":[", "{\"k\":\"return\"}", "]}", "]}}");
    const char *block = "{\"k\":\"block\",\"attrs\":[{\"k\":\"if\",\"expr\":\"A\"}],\"stmts\":[";
    try_depth(function, block, "{\"k\":\"return\"}", "]}", "]}}");
    try_depth(function, "{\"k\":\"for\",\"body\":{},\"init\":", "{\"k\":\"return\"}", "}", "]}}");
    for (int i = 1; i < count; i++)
        try_file(names[i], &line);
    free(line.bytes);
    printf("%d passed, %d failed\n", passed, failed);
    return failed != 0;
}
