/* Sets the version of a Cargo.toml:  example VERSION < Cargo.toml > new.toml */
#include <keep_toml.h>
#include <stdio.h>
#include <stdlib.h>
#include <string.h>

/* All bytes of a file, to be freed; NULL if memory runs out. */
static uint8_t *all_of(FILE *file, size_t *len) {
    size_t room = 65536, have = 0;
    uint8_t *bytes = (uint8_t *)malloc(room);
    while (bytes != NULL) {
        have += fread(bytes + have, 1, room - have, file);
        if (have < room) {
            break;
        }
        uint8_t *more = (uint8_t *)realloc(bytes, room *= 2);
        if (more == NULL) {
            free(bytes);
        }
        bytes = more;
    }
    *len = have;
    return bytes;
}

int main(int count, char **words) {
    static const char path[] = "package.version";
    char value[64];
    size_t len = 0, size = 0;
    keep_toml_fault fault;
    if (count != 2 || snprintf(value, sizeof value, "\"%s\"", words[1]) >= (int)sizeof value) {
        fputs("usage: example VERSION < Cargo.toml\n", stderr);
        return 2;
    }
    uint8_t *document = all_of(stdin, &len);
    size_t room = len + 6 * (strlen(path) + strlen(value)) + KEEP_TOML_REASON;
    uint8_t *out = (uint8_t *)malloc(room);
    if (document == NULL || out == NULL) {
        free(document);
        free(out);
        return KEEP_TOML_NO_MEMORY;
    }
    int status = keep_toml_set(KEEP_TOML_STRICT, document, len, (const uint8_t *)path, strlen(path),
                               (const uint8_t *)value, strlen(value), out, room, &size, &fault);
    fwrite(out, 1, size, status == KEEP_TOML_OK ? stdout : stderr);
    free(document);
    free(out);
    return status;
}
