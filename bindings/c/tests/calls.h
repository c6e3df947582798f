/* The calls by the names of the program's subcommands, for the tests. */
#include <keep_toml.h>
#include <stdio.h>
#include <stdlib.h>
#include <string.h>

/* bytes, of which some may be zero */
typedef struct {
    const char *at;
    size_t len;
} text;

#define IN(t) (const uint8_t *)(t).at, (t).len

/* The status of the call with this name and as many words; -1 where there is none. */
static int call_by(const char *name, int count, const text *word, text doc, uint8_t *out, size_t room, size_t *size,
                   keep_toml_fault *fault) {
    if (count == 0) {
        if (!strcmp(name, "check")) return keep_toml_check(KEEP_TOML_STRICT, IN(doc), out, room, size, fault);
        if (!strcmp(name, "check-wide")) return keep_toml_check(KEEP_TOML_WIDE, IN(doc), out, room, size, fault);
        if (!strcmp(name, "list")) return keep_toml_list(KEEP_TOML_STRICT, IN(doc), out, room, size, fault);
    } else if (count == 1) {
        if (!strcmp(name, "get")) return keep_toml_get(KEEP_TOML_STRICT, IN(doc), IN(word[0]), out, room, size, fault);
        if (!strcmp(name, "text")) return keep_toml_text(KEEP_TOML_STRICT, IN(doc), IN(word[0]), out, room, size, fault);
        if (!strcmp(name, "remove")) return keep_toml_remove(KEEP_TOML_STRICT, IN(doc), IN(word[0]), out, room, size, fault);
        if (!strcmp(name, "table")) return keep_toml_table(KEEP_TOML_STRICT, IN(doc), IN(word[0]), out, room, size, fault);
        if (!strcmp(name, "element")) return keep_toml_element(KEEP_TOML_STRICT, IN(doc), IN(word[0]), out, room, size, fault);
        if (!strcmp(name, "apply")) return keep_toml_apply(KEEP_TOML_STRICT, IN(doc), IN(word[0]), out, room, size, fault);
        if (!strcmp(name, "apply-wide")) return keep_toml_apply_wide(KEEP_TOML_WIDE, IN(doc), IN(word[0]), out, room, size, fault);
    } else if (count == 2) {
        if (!strcmp(name, "set")) return keep_toml_set(KEEP_TOML_STRICT, IN(doc), IN(word[0]), IN(word[1]), out, room, size, fault);
        if (!strcmp(name, "insert")) return keep_toml_insert(KEEP_TOML_STRICT, IN(doc), IN(word[0]), IN(word[1]), out, room, size, fault);
        if (!strcmp(name, "rename")) return keep_toml_rename(KEEP_TOML_STRICT, IN(doc), IN(word[0]), IN(word[1]), out, room, size, fault);
    }
    return -1;
}
