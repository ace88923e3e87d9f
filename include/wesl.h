/* The linker of WESL modules as a C library.
 *
 * A bundle of modules goes in as JSON text, and one line comes out: the linked unit, or the fault that stands in the way.
 * docs/FORMAT.md describes both; docs/USING.md, "From C, C++, Rust and Python", says how a program is built with this library.
 *
 * A call takes less than 1 MB of the thread's stack, of any bundle: by measuring the deepest trees that JSON allows (0.7 MB), and
 * not by proof. The library of `./build --library` is for processors with all that x86-64-v2 names, as SSE4.2, and does not look
 * whether that is there; an unproved one is for all of x86-64.
 */
#ifndef WESL_H
#define WESL_H

#include <stddef.h>
#include <stdint.h>
#include <stdlib.h>

#ifdef __cplusplus
extern "C" {
#endif

/* The version that this header is of, 0.1.0: 10000 times its first number, 100 times its second, and its third. */
#define WESL_VERSION 100

/* The line is an answer: it has the linked unit. */
#define WESL_LINKED 0
/* The line tells a fault. */
#define WESL_REFUSED 1
/* There is no line, as memory was refused for it. Only wesl_link_grow and wesl_link_texts_grow answer so. */
#define WESL_NO_ROOM 2

/* The version of the library, as a number like WESL_VERSION. A library whose version is not below WESL_VERSION, and which has the
 * same first number, has all that is declared here. */
uint32_t wesl_version(void);

/* Links the bundle in the first `bundle_length` bytes at `bundle`, and answers WESL_LINKED or WESL_REFUSED.
 *
 * The line, with its line feed and without a zero byte at its end, is written to `buffer`, which has room for
 * `buffer_length` bytes. `*needed` is set to the length of the whole line. Where it is above `buffer_length`, the buffer
 * has the beginning of the line alone: call again with a buffer of that length. What lies in the buffer behind the line
 * stays as it was.
 *
 * No pointer may be null, also where its length is 0, and no length may be above PTRDIFF_MAX. The buffer and `*needed`
 * lie apart from each other and from the bundle, and while the call runs nothing else writes to any of the three or reads
 * from the buffer or `*needed`. The call keeps no pointer and no memory; it may be made on several threads at a time, but
 * not from a signal handler, nor in the forked child of a process with threads. It takes memory by `malloc` and `realloc` and gives
 * it back by `free`, of one allocator, as the C library's are; where they refuse it, the line says so.
 */
uint32_t wesl_link_bundle(const uint8_t *bundle, size_t bundle_length,
                          uint8_t *buffer, size_t buffer_length,
                          size_t *needed);

/* Links a bundle each unit of which is a text, the shader text of its module as a JSON string, and answers as wesl_link_bundle does,
 * of which all else holds here: an answer has the text of the linked unit in place of a tree (docs/FORMAT.md, Bundles of texts). */
uint32_t wesl_link_texts(const uint8_t *bundle, size_t bundle_length,
                         uint8_t *buffer, size_t buffer_length,
                         size_t *needed);

/* A buffer for lines, which only grows: the first `length` of the `room` bytes at `bytes` are the last line. It begins with
 * all three 0, as `struct wesl_buffer buffer = {0};`, and its bytes go by `free`. */
struct wesl_buffer {
    uint8_t *bytes;
    size_t length;
    size_t room;
};

/* Gives the buffer this room, without a line in it. Answers 0 where there is no memory for it: it then has no room at all. */
static inline int wesl_buffer_reserve(struct wesl_buffer *buffer, size_t room) {
    buffer->length = 0;
    if (room <= buffer->room)
        return 1;
    free(buffer->bytes);
    buffer->bytes = room <= PTRDIFF_MAX ? (uint8_t *)malloc(room) : NULL;
    buffer->room = buffer->bytes ? room : 0;
    return buffer->bytes != NULL;
}

/* One of the two calls above. */
typedef uint32_t wesl_link_call(const uint8_t *bundle, size_t bundle_length,
                                uint8_t *buffer, size_t buffer_length,
                                size_t *needed);

/* What wesl_link_grow and wesl_link_texts_grow have in common: which call they make. */
static inline uint32_t wesl_grow_by(wesl_link_call *link, const uint8_t *bundle, size_t bundle_length,
                                    struct wesl_buffer *buffer) {
    const uint8_t nothing = 0;
    size_t needed = 65536 + 2 * bundle_length;
    uint32_t status;
    if (!bundle)
        bundle = &nothing;
    do {
        if (!wesl_buffer_reserve(buffer, needed))
            return WESL_NO_ROOM;
        status = link(bundle, bundle_length, buffer->bytes, buffer->room, &needed);
    } while (needed > buffer->room);
    buffer->length = needed;
    return status;
}

/* Links the bundle as wesl_link_bundle does, and leaves the whole line in the buffer. Answers WESL_LINKED, WESL_REFUSED, or
 * WESL_NO_ROOM, and then there is no line. Here `bundle` may be null where its length is 0.
 *
 * The buffer is first given room for 65,536 bytes and twice as many as the bundle has, which is enough for nearly every line.
 * Only where the line is longer than the room, the bundle is linked a second time: with one buffer for many links that happens
 * only to a line which is longer than all before.
 */
static inline uint32_t wesl_link_grow(const uint8_t *bundle, size_t bundle_length, struct wesl_buffer *buffer) {
    return wesl_grow_by(wesl_link_bundle, bundle, bundle_length, buffer);
}

/* The same of a bundle of texts, as wesl_link_texts links it. */
static inline uint32_t wesl_link_texts_grow(const uint8_t *bundle, size_t bundle_length, struct wesl_buffer *buffer) {
    return wesl_grow_by(wesl_link_texts, bundle, bundle_length, buffer);
}

#ifdef __cplusplus
}
#endif

#endif
