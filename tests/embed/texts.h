/* Files, and the lines of scripts, for the drivers of tests/embed/run. */
#include <stdio.h>
#include <stdlib.h>
#include <string.h>

#include "cizhmolat.h"

typedef struct {
    const uint8_t *at;
    size_t length;
} text;

/* Ends the driver, which says why. */
static inline void stop(const char *why) {
    fprintf(stderr, "%s\n", why);
    exit(1);
}

/* The bytes of a file, in a block that is just as long. */
static inline text whole_file(const char *name) {
    FILE *file = fopen(name, "rb");
    if (file == NULL || fseek(file, 0, SEEK_END) != 0) stop("no such file");
    size_t length = (size_t)ftell(file);
    uint8_t *at = malloc(length != 0 ? length : 1);
    rewind(file);
    if (at == NULL || fread(at, 1, length, file) != length) stop("the file can't be read");
    fclose(file);
    return (text){at, length};
}

/* The text before the first such byte, of which it and the byte are then gone. */
static inline text cut_off(text *rest, uint8_t byte) {
    const uint8_t *end = rest->length != 0 ? memchr(rest->at, byte, rest->length) : NULL;
    text front = {rest->at, end != NULL ? (size_t)(end - rest->at) : rest->length};
    size_t gone = front.length + (end != NULL);
    rest->at += gone;
    rest->length -= gone;
    return front;
}

/* The next line of a script, in its two parts; or there is none. */
static inline bool next_line(text *script, text *role, text *command) {
    if (script->length == 0) return false;
    *command = cut_off(script, '\n');
    *role = cut_off(command, ' ');
    return true;
}
