/* rows FILE..: makes the calls of the rows of tests/rows/model_cases.tsv, and compares what comes out with what the program answers there.
 *
 * A row has, with tabs between them: status, standard error, document, standard output, subcommand, words; `\xHH` is a byte. Each call
 * is made with ample room, then with one byte too few for its answer. A row whose words the program's command line refuses has no call.
 * The numbers of a fault have to spell its text. Values that only the profile Wide has are tried beside the rows.
 * The last line says how many rows passed. */
#define _GNU_SOURCE
#include "calls.h"

#define ROOM (1 << 20)
#define UNTOUCHED '#'
#define NO_CALL (-1)

/* what the program puts before a reason, and a call does not */
static const char prefix[] = "keep-toml: ";

typedef struct {
    int status, count;
    text reason, document, answer, words[3];
    const char *name;
} row;

static uint8_t out[ROOM];

static size_t unescape(char *s) {
    char *to = s, *from = s;
    while (*from) {
        unsigned byte;
        if (from[0] == '\\' && from[1] == 'x' && sscanf(from + 2, "%2x", &byte) == 1) {
            *to++ = (char)byte;
            from += 4;
        } else {
            *to++ = *from++;
        }
    }
    *to = 0;
    return (size_t)(to - s);
}

/* Cuts a line into its cells, in place; says how many there are, at most 8. */
static int cells_of(char *line, text cell[8]) {
    int count = 0;
    for (char *at = line, *next; at && count < 8; at = next) {
        if ((next = strchr(at, '\t'))) *next++ = 0;
        cell[count].at = at;
        cell[count++].len = unescape(at);
    }
    return count;
}

static const char *word_of(uint32_t reason) {
    static const char *const words[] = {
        [KEEP_TOML_SYNTAX_KEY_PART] = "KeyPart", [KEEP_TOML_SYNTAX_ESCAPE] = "Escape",
        [KEEP_TOML_SYNTAX_CONTROL] = "Control", [KEEP_TOML_SYNTAX_UNCLOSED] = "Unclosed",
        [KEEP_TOML_SYNTAX_INTEGER] = "Integer", [KEEP_TOML_SYNTAX_FLOAT] = "Float",
        [KEEP_TOML_SYNTAX_DATE_TIME] = "DateTime", [KEEP_TOML_SYNTAX_WORD] = "Word",
        [KEEP_TOML_SYNTAX_STRUCTURE] = "Structure", [KEEP_TOML_RULE_NOT_A_TABLE] = "NotATable",
        [KEEP_TOML_RULE_DEFINED_TWICE] = "DefinedTwice", [KEEP_TOML_RULE_NOT_AN_ARRAY] = "NotAnArray",
        [KEEP_TOML_RULE_NOT_BY_DOTS] = "NotByDots", [KEEP_TOML_RULE_DUPLICATE_KEY] = "DuplicateKey",
        [KEEP_TOML_EDIT_NOT_FOUND] = "NotFound", [KEEP_TOML_EDIT_EXISTS] = "Exists",
        [KEEP_TOML_EDIT_NOT_VALUE] = "NotValue", [KEEP_TOML_EDIT_NOT_TABLE] = "NotTable",
        [KEEP_TOML_EDIT_NOT_KEY] = "NotKey", [KEEP_TOML_EDIT_SCATTERED] = "Scattered",
        [KEEP_TOML_EDIT_TOO_DEEP] = "TooDeep", [KEEP_TOML_EDIT_PROFILE] = "Profile",
        [KEEP_TOML_CONFLICT_NOT_A_TABLE] = "Conflict NotATable",
        [KEEP_TOML_CONFLICT_DEFINED_TWICE] = "Conflict DefinedTwice",
        [KEEP_TOML_CONFLICT_NOT_AN_ARRAY] = "Conflict NotAnArray",
        [KEEP_TOML_CONFLICT_NOT_BY_DOTS] = "Conflict NotByDots",
        [KEEP_TOML_CONFLICT_DUPLICATE_KEY] = "Conflict DuplicateKey", [KEEP_TOML_SCRIPT_OP] = "Op",
        [KEEP_TOML_SCRIPT_KEYS] = "Keys", [KEEP_TOML_SCRIPT_PATH] = "Path", [KEEP_TOML_SCRIPT_VALUE] = "Value",
    };
    return reason < sizeof words / sizeof *words && words[reason] ? words[reason] : "?";
}

/* The text that the numbers of a fault stand for; none where the numbers do not agree. */
static void spell(const keep_toml_fault *fault, char *to, size_t room) {
    static const char *const before[] = {"", "", "", "", "", "value: ", "script: ", "", ""};
    const char *in = fault->kind < sizeof before / sizeof *before ? before[fault->kind] : "?";
    const char *word = word_of(fault->reason);
    if (fault->kind == KEEP_TOML_IN_PATH) snprintf(to, room, "path at %zu", fault->at);
    else if (fault->kind == KEEP_TOML_IN_TEXT) snprintf(to, room, "a word is not UTF-8");
    else if (fault->reason == KEEP_TOML_SCRIPT_SHAPE) snprintf(to, room, "script: shape");
    else if (fault->reason == KEEP_TOML_READ_UTF8) snprintf(to, room, "%snot UTF-8 at %zu", in, fault->at);
    else if (fault->reason == KEEP_TOML_READ_TOO_DEEP) snprintf(to, room, "%stoo deep at %zu", in, fault->at);
    else if (fault->reason / 10 == 1) snprintf(to, room, "%ssyntax at %zu: %s", in, fault->at, word);
    else if (fault->reason / 10 == 2) snprintf(to, room, "%sdefinition at %zu: %s", in, fault->at, word);
    else if (fault->edit != KEEP_TOML_NONE) snprintf(to, room, "%sedit %zu: %s", in, fault->edit, word);
    else snprintf(to, room, "?");
    if ((fault->at != KEEP_TOML_NONE) != (strstr(to, " at ") != NULL) || (fault->edit != KEEP_TOML_NONE) != (strstr(to, "edit ") != NULL)) *to = 0;
}

/* Whether the numbers are those of a status and its text. */
static int has_numbers(const keep_toml_fault *fault, int status, text reason) {
    char spelled[128];
    if (status == KEEP_TOML_OK || status == KEEP_TOML_NO_ROOM) {
        uint32_t kind = status == KEEP_TOML_OK ? KEEP_TOML_IN_NOTHING : KEEP_TOML_IN_ROOM;
        return fault->kind == kind && !fault->reason && fault->at == KEEP_TOML_NONE && fault->edit == KEEP_TOML_NONE;
    }
    spell(fault, spelled, sizeof spelled);
    return strlen(spelled) == reason.len && !memcmp(spelled, reason.at, reason.len);
}

static int read_row(char *line, row *it) {
    text cell[8];
    int count = cells_of(line, cell);
    if (count < 5) return 0;
    *it = (row){.status = atoi(cell[0].at), .reason = cell[1], .document = cell[2], .answer = cell[3], .name = cell[4].at};
    if (it->reason.len > strlen(prefix)) {
        it->reason.at += strlen(prefix);
        it->reason.len -= strlen(prefix);
    }
    for (int i = 5; i < count; i++) {
        /* the program ends its options by it, and a call has no options */
        if (i == 5 && !strcmp(cell[i].at, "--")) continue;
        it->words[it->count++] = cell[i];
    }
    return 1;
}

/* Whether `out` is untouched from one byte to another. */
static int untouched(size_t from, size_t to) {
    while (from < to && out[from] == UNTOUCHED) from++;
    return from == to;
}

/* Whether a call with so much room says what it has to; NO_CALL where the row has no call. */
static int is_right_with(const row *it, size_t room) {
    text wanted = it->status ? it->reason : it->answer;
    int fits = room >= wanted.len;
    size_t size = (size_t)-1, written = fits ? wanted.len : 0;
    keep_toml_fault fault = {77, 77, 77, 77};
    int status = call_by(it->name, it->count, it->words, it->document, out, room, &size, &fault);
    if (status == NO_CALL) return NO_CALL;
    int wanted_status = fits || it->status ? it->status : KEEP_TOML_NO_ROOM;
    int right = status == wanted_status && size == wanted.len && !memcmp(out, wanted.at, written) &&
                untouched(written, wanted.len + 64) && has_numbers(&fault, status, it->reason);
    memset(out, UNTOUCHED, wanted.len + 64);
    return right;
}

static int is_right(const row *it) {
    size_t len = it->status ? it->reason.len : it->answer.len;
    int right = is_right_with(it, ROOM);
    return right == 1 && len ? is_right_with(it, len - 1) : right;
}

static void try_rows(FILE *file, size_t *passed, size_t *failed) {
    char *line = NULL;
    size_t room = 0;
    for (ssize_t len; (len = getline(&line, &room, file)) > 0;) {
        row it;
        if (line[len - 1] == '\n') line[len - 1] = 0;
        if (!read_row(line, &it)) continue;
        int right = is_right(&it);
        *passed += right == 1;
        *failed += right == 0;
        if (right == 0) printf("FAILED %s %s\n", it.name, it.count ? it.words[0].at : "");
    }
    free(line);
}

/* `set` and `insert` take a value of the profile that the call names, which TOML v1.0.0 has not. */
static size_t wrong_wide_values(void) {
    static const struct {
        const char *document, *value, *wide;
    } rows[] = {
        {"a = 1 # x", "{ x = 1, }", "a = { x = 1, } # x"},
        {"a = 1", "\"\\e\"", "a = \"\\e\""},
        {"a = 1", "12:30", "a = 12:30"},
    };
    size_t wrong = 0;
    for (size_t i = 0; i < sizeof rows / sizeof *rows; i++) {
        const text doc = {rows[i].document, strlen(rows[i].document)}, path = {"a", 1}, more = {"b", 1};
        const text value = {rows[i].value, strlen(rows[i].value)};
        size_t size = 0;
        keep_toml_fault fault;
        int said = keep_toml_set(KEEP_TOML_WIDE, IN(doc), IN(path), IN(value), out, ROOM, &size, &fault);
        wrong += said != 0 || size != strlen(rows[i].wide) || memcmp(out, rows[i].wide, size) || fault.kind != KEEP_TOML_IN_NOTHING;
        wrong += keep_toml_insert(KEEP_TOML_WIDE, IN(doc), IN(more), IN(value), out, ROOM, &size, &fault) != 0;
        wrong += keep_toml_set(KEEP_TOML_STRICT, IN(doc), IN(path), IN(value), out, ROOM, &size, &fault) != 2;
        wrong += fault.kind != KEEP_TOML_IN_VALUE || fault.reason / 10 != 1 || fault.at == KEEP_TOML_NONE || fault.edit != KEEP_TOML_NONE;
    }
    return wrong;
}

int main(int count, char **files) {
    size_t passed = 0, failed = wrong_wide_values();
    if (failed) printf("FAILED values of Wide\n");
    memset(out, UNTOUCHED, sizeof out);
    for (int i = 1; i < count; i++) {
        FILE *file = fopen(files[i], "r");
        if (!file) {
            perror(files[i]);
            return 3;
        }
        try_rows(file, &passed, &failed);
        fclose(file);
    }
    printf("rows by C: %zu passed, %zu failed\n", passed, failed);
    return failed || !passed;
}
