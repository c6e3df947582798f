/* SPDX-License-Identifier: MIT OR Apache-2.0 */
/**
 * @file keep_toml.h
 * keep-toml: reads TOML v1.0.0 documents and changes one value, key or section, every other byte as it was.
 *
 * Each call answers what the program `keep-toml` answers to the same words and the same document, and the same theorem stands
 * on it. A call keeps nothing: there is no handle, no state, nothing to free, and calls in several threads don't meet.
 *
 * **In.** Texts are UTF-8, given by pointer and length in bytes; no zero byte ends them, and one inside is no end.
 * `profile` is KEEP_TOML_STRICT (TOML v1.0.0) or KEEP_TOML_WIDE (which also takes newlines, comments and a last comma in inline
 * tables, `\e`, `\xHH`, and times without seconds).
 * A *path* is written as in TOML, with dots between keys and no spaces, and `[n]` for an item: `servers.alpha.ip`,
 * `products[1].name`, `"a b".'c.d'`. *keys* are a path without `[n]`. A *value* is any value of the profile as it is written:
 * `2`, `"text"`, `[1, 2]`, in KEEP_TOML_WIDE also `{ x = 1, }`. A *script* is a TOML document of edits (README, "A script").
 *
 * **Out.** The answer is written to `out`, which has room for `room` bytes, and its length in bytes to `*size`. No zero byte is
 * added. The bytes of `out` after it stay as they were. `*fault` gets the fault as numbers, which need not be read from its text.
 *
 * | status | | `out` | `*size` |
 * |---|---|---|---|
 * | KEEP_TOML_OK        0 | done | begins with the answer | its length |
 * | KEEP_TOML_REFUSED   1 | the document or the edit is refused | begins with the reason, if it has room | the reason's length |
 * | KEEP_TOML_UNREADABLE 2 | a path, value, key or script can't be read | the same | the same |
 * | KEEP_TOML_NO_ROOM   3 | the answer is longer than `room` | as it was | the room that is wanted |
 * | KEEP_TOML_NO_MEMORY 4 | `malloc` or `realloc` gave none | as it was | 0 |
 *
 * What `*size` and `*fault` held before the call doesn't matter.
 *
 * A reason is one line without newline, of at most KEEP_TOML_REASON bytes: `syntax at 15: Word`, `definition at 15: DefinedTwice`,
 * `edit 0: NotFound`, `path at 3`. Places are bytes from the start, from 0. If there is no memory for the reason it is empty.
 *
 * **An edit's answer** is at most as long as the document, the path and the value or key as they are encoded, and 12 bytes; what
 * is encoded is at most six times as long. So `room = len + 6 * (path_len + value_len) + 16` never meets NO_ROOM, but for scripts.
 *
 * **What the caller owes** (nothing checks it): no pointer is null, also for 0 bytes; lengths are true, and less than 2^63; `out`,
 * `size` and `fault` overlap no other argument; no other thread writes to these bytes meanwhile; no call from a signal handler, or in
 * the forked child of a process with threads; 256 KiB of stack.
 */
#ifndef KEEP_TOML_H
#define KEEP_TOML_H

#include <stddef.h>
#include <stdint.h>

#ifdef __cplusplus
extern "C" {
#endif

/** The version of this header. */
#define KEEP_TOML_VERSION "0.1.0"
/** What `keep_toml_interface()` answers in a library that this header declares. */
#define KEEP_TOML_INTERFACE 1u

#define KEEP_TOML_STRICT ((uint8_t)0)
#define KEEP_TOML_WIDE ((uint8_t)1)

#define KEEP_TOML_OK 0
#define KEEP_TOML_REFUSED 1
#define KEEP_TOML_UNREADABLE 2
#define KEEP_TOML_NO_ROOM 3
#define KEEP_TOML_NO_MEMORY 4

/** Room that the text of any reason fits in. */
#define KEEP_TOML_REASON 128

/** A place or an edit that a fault has not. */
#define KEEP_TOML_NONE ((size_t)-1)

/** What is at fault. */
enum keep_toml_kind {
    KEEP_TOML_IN_NOTHING = 0,
    KEEP_TOML_IN_DOCUMENT = 1, /**< the document can't be read: `reason`, `at` */
    KEEP_TOML_IN_EDIT = 2,     /**< the edit, or what is asked at the path, is refused: `reason`, `edit` (0 without a script) */
    KEEP_TOML_IN_TEXT = 3,     /**< a path, value, key or script is not UTF-8 */
    KEEP_TOML_IN_PATH = 4,     /**< a path can't be read: `at` in it */
    KEEP_TOML_IN_VALUE = 5,    /**< a value can't be read: `reason`, `at` in it */
    KEEP_TOML_IN_SCRIPT = 6,   /**< a script can't be read: `reason`, and `at` in it or `edit` */
    KEEP_TOML_IN_ROOM = 7,     /**< `out` has no room for the answer */
    KEEP_TOML_IN_MEMORY = 8    /**< out of memory */
};

/** Why. The name is the word of the text, after KEEP_TOML_ and the group. */
enum keep_toml_reason {
    KEEP_TOML_NO_REASON = 0,
    /* of a text that can't be read */
    KEEP_TOML_READ_UTF8 = 1,
    KEEP_TOML_READ_TOO_DEEP = 2,
    KEEP_TOML_SYNTAX_KEY_PART = 11,
    KEEP_TOML_SYNTAX_ESCAPE = 12,
    KEEP_TOML_SYNTAX_CONTROL = 13,
    KEEP_TOML_SYNTAX_UNCLOSED = 14,
    KEEP_TOML_SYNTAX_INTEGER = 15,
    KEEP_TOML_SYNTAX_FLOAT = 16,
    KEEP_TOML_SYNTAX_DATE_TIME = 17,
    KEEP_TOML_SYNTAX_WORD = 18,
    KEEP_TOML_SYNTAX_STRUCTURE = 19,
    KEEP_TOML_RULE_NOT_A_TABLE = 21,
    KEEP_TOML_RULE_DEFINED_TWICE = 22,
    KEEP_TOML_RULE_NOT_AN_ARRAY = 23,
    KEEP_TOML_RULE_NOT_BY_DOTS = 24,
    KEEP_TOML_RULE_DUPLICATE_KEY = 25,
    /* of an edit that is refused; a conflict by the rule that the new header would break */
    KEEP_TOML_EDIT_NOT_FOUND = 31,
    KEEP_TOML_EDIT_EXISTS = 32,
    KEEP_TOML_EDIT_NOT_VALUE = 33,
    KEEP_TOML_EDIT_NOT_TABLE = 34,
    KEEP_TOML_EDIT_NOT_KEY = 35,
    KEEP_TOML_EDIT_SCATTERED = 36,
    KEEP_TOML_EDIT_TOO_DEEP = 37,
    KEEP_TOML_EDIT_PROFILE = 38,
    KEEP_TOML_CONFLICT_NOT_A_TABLE = 41,
    KEEP_TOML_CONFLICT_DEFINED_TWICE = 42,
    KEEP_TOML_CONFLICT_NOT_AN_ARRAY = 43,
    KEEP_TOML_CONFLICT_NOT_BY_DOTS = 44,
    KEEP_TOML_CONFLICT_DUPLICATE_KEY = 45,
    /* of a script's element, and of a script */
    KEEP_TOML_SCRIPT_OP = 51,
    KEEP_TOML_SCRIPT_KEYS = 52,
    KEEP_TOML_SCRIPT_PATH = 53,
    KEEP_TOML_SCRIPT_VALUE = 54,
    KEEP_TOML_SCRIPT_SHAPE = 55
};

/** A fault as numbers. Each call says by its contract that they are those of the fault which its status and text stand for. */
typedef struct keep_toml_fault {
    uint32_t kind;   /**< of `enum keep_toml_kind` */
    uint32_t reason; /**< of `enum keep_toml_reason` */
    size_t at;       /**< the place in bytes from the start, or KEEP_TOML_NONE */
    size_t edit;     /**< the number of the edit, from 0, or KEEP_TOML_NONE */
} keep_toml_fault;

/** The number of this set of calls. It changes where a caller has to be compiled anew. */
uint32_t keep_toml_interface(void);

/** Whether the bytes are a document, and how large: `ok tokens=T nodes=N` and a newline. */
uint8_t keep_toml_check(uint8_t profile, const uint8_t *document, size_t len,
                        uint8_t *out, size_t room, size_t *size, keep_toml_fault *fault);

/** A line for each node but the root: its path, a tab, its kind (`string`, `integer`, .., `array-of-tables`). */
uint8_t keep_toml_list(uint8_t profile, const uint8_t *document, size_t len,
                       uint8_t *out, size_t room, size_t *size, keep_toml_fault *fault);

/** The value at a path as it is written, and a newline. */
uint8_t keep_toml_get(uint8_t profile, const uint8_t *document, size_t len, const uint8_t *path, size_t path_len,
                      uint8_t *out, size_t room, size_t *size, keep_toml_fault *fault);

/** What the string at a path means, decoded, with nothing added. It may hold zero bytes. */
uint8_t keep_toml_text(uint8_t profile, const uint8_t *document, size_t len, const uint8_t *path, size_t path_len,
                       uint8_t *out, size_t room, size_t *size, keep_toml_fault *fault);

/** The document with another value at a path. Refused: NotFound, NotValue, TooDeep. */
uint8_t keep_toml_set(uint8_t profile, const uint8_t *document, size_t len, const uint8_t *path, size_t path_len,
                      const uint8_t *value, size_t value_len, uint8_t *out, size_t room, size_t *size, keep_toml_fault *fault);

/** The document with a value at a path where nothing is, or as an item of an array. Refused: NotFound, Exists, NotTable, TooDeep. */
uint8_t keep_toml_insert(uint8_t profile, const uint8_t *document, size_t len, const uint8_t *path, size_t path_len,
                         const uint8_t *value, size_t value_len, uint8_t *out, size_t room, size_t *size, keep_toml_fault *fault);

/** The document with another last key of a path; the key is plain text. Refused: NotFound, Exists, NotKey, Scattered. */
uint8_t keep_toml_rename(uint8_t profile, const uint8_t *document, size_t len, const uint8_t *path, size_t path_len,
                         const uint8_t *key, size_t key_len, uint8_t *out, size_t room, size_t *size, keep_toml_fault *fault);

/** The document without a key and its line, an item and one comma, or a section. Refused: NotFound, NotKey, Scattered. */
uint8_t keep_toml_remove(uint8_t profile, const uint8_t *document, size_t len, const uint8_t *path, size_t path_len,
                         uint8_t *out, size_t room, size_t *size, keep_toml_fault *fault);

/** The document with the header `[keys]` at its end. Refused: NotKey, Conflict. */
uint8_t keep_toml_table(uint8_t profile, const uint8_t *document, size_t len, const uint8_t *keys, size_t keys_len,
                        uint8_t *out, size_t room, size_t *size, keep_toml_fault *fault);

/** The document with the header `[[keys]]` at its end. Refused: NotKey, Conflict. */
uint8_t keep_toml_element(uint8_t profile, const uint8_t *document, size_t len, const uint8_t *keys, size_t keys_len,
                          uint8_t *out, size_t room, size_t *size, keep_toml_fault *fault);

/** The document after all edits of a script in their order, or none. The script's values are TOML v1.0.0. */
uint8_t keep_toml_apply(uint8_t profile, const uint8_t *document, size_t len, const uint8_t *script, size_t script_len,
                        uint8_t *out, size_t room, size_t *size, keep_toml_fault *fault);

/** The same; the script's values are of the profile Wide. */
uint8_t keep_toml_apply_wide(uint8_t profile, const uint8_t *document, size_t len, const uint8_t *script, size_t script_len,
                             uint8_t *out, size_t room, size_t *size, keep_toml_fault *fault);

#ifdef __cplusplus
}
#endif
#endif
