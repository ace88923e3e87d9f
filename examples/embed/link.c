/* Links the bundle on standard input, and writes its line, as the program wesl-link does: status 0 where a unit was
 * linked, 1 where the line tells a fault, 2 where a read, a write or memory failed. */
#include <stdio.h>
#include <stdlib.h>

#include "wesl.h"

/* All bytes of a file, which the caller frees; null where a read or memory failed. */
static uint8_t *read_whole(FILE *file, size_t *length) {
    size_t room = 65536;
    uint8_t *bytes = malloc(room);
    *length = 0;
    while (bytes) {
        *length += fread(bytes + *length, 1, room - *length, file);
        if (*length < room)
            break;
        uint8_t *larger = realloc(bytes, room *= 2);
        if (!larger)
            free(bytes);
        bytes = larger;
    }
    if (bytes && ferror(file)) {
        free(bytes);
        return NULL;
    }
    return bytes;
}

int main(void) {
    size_t length;
    struct wesl_buffer line = {0};
    uint8_t *bundle = read_whole(stdin, &length);
    uint32_t status = bundle ? wesl_link_grow(bundle, length, &line) : WESL_NO_ROOM;
    if (status != WESL_NO_ROOM && (fwrite(line.bytes, 1, line.length, stdout) != line.length || fflush(stdout) != 0))
        status = 2;
    free(bundle);
    free(line.bytes);
    return (int)status;
}
