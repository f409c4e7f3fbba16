/* Reads a script from standard input and writes its output, as lol_match does. */
#include "zugrenja.h"
#include <stdio.h>
#include <stdlib.h>

/* Standard input to its end; its length in `length`. Null if memory or the read fails. */
static uint8_t *read_input(size_t *length) {
    size_t room = 1 << 16;
    uint8_t *bytes = malloc(room);
    *length = 0;
    while (bytes != NULL) {
        size_t count = fread(bytes + *length, 1, room - *length, stdin);
        *length += count;
        if (count == 0) {
            break;
        }
        if (*length == room) {
            uint8_t *more = realloc(bytes, room *= 2);
            if (more == NULL) {
                free(bytes);
            }
            bytes = more;
        }
    }
    if (bytes != NULL && ferror(stdin)) {
        free(bytes);
        return NULL;
    }
    return bytes;
}

int main(void) {
    size_t length, written, room = 1 << 16;
    uint8_t *script = read_input(&length);
    uint8_t *out = malloc(room);
    if (script == NULL || out == NULL) {
        return ZUGRENJA_OUT_OF_MEMORY;
    }
    uint32_t status = zugrenja_run_script(script, length, out, room, &written);
    if (written > room) {
        free(out);
        room = written;
        out = malloc(room);
        if (out == NULL) {
            return ZUGRENJA_OUT_OF_MEMORY;
        }
        status = zugrenja_run_script(script, length, out, room, &written);
    }
    if (fwrite(out, 1, written, stdout) != written) {
        return EXIT_FAILURE;
    }
    free(script);
    free(out);
    return (int)status;
}
