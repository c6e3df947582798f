/* Refuses each growth of memory that a call asks for in turn, that one alone and then that one and all after it.
 *
 * The call has to answer KEEP_TOML_NO_MEMORY with `out` untouched and `size` 0, or what it answers otherwise (a fault without its reason,
 * if the reason got no memory), and to leave no block behind. Linked with --wrap of malloc, realloc and free. */
#include "calls.h"

/* the growths until one is refused, and whether those after it are too; a negative number refuses none */
static long growths_left = -1;
static int refuses_on;
/* whether one was refused, and the blocks that are not freed */
static int has_refused;
static long live;

void *__real_malloc(size_t);
void *__real_realloc(void *, size_t);
void __real_free(void *);

static int refuses(void) {
    if (growths_left < 0 || growths_left-- > 0) return 0;
    growths_left = refuses_on ? 0 : -1;
    return has_refused = 1;
}

void *__wrap_malloc(size_t n) {
    void *p = refuses() ? NULL : __real_malloc(n);
    live += p != NULL;
    return p;
}

void *__wrap_realloc(void *old, size_t n) {
    void *p = refuses() ? NULL : __real_realloc(old, n);
    live += p != NULL && old == NULL;
    return p;
}

void __wrap_free(void *p) {
    live -= p != NULL;
    __real_free(p);
}

#define T(s) {s, sizeof(s) - 1}
static const text doc = T("[t]\nk = [1, {x = 'y', \"z\" = \"\\u00e9\"}] # c\n[[u]]\na.b = 1\n[[u]]\na.b = 2\n");
static const struct {
    const char *name;
    int count;
    text word[2];
} calls[] = {
    {"check", 0, {T("")}},
    {"check-wide", 0, {T("")}},
    {"list", 0, {T("")}},
    {"get", 1, {T("t.k[1].z")}},
    {"get", 1, {T("t.q")}},
    {"get", 1, {T("t..q")}},
    {"text", 1, {T("t.k[1].z")}},
    {"text", 1, {T("t")}},
    {"set", 2, {T("u[1].a.b"), T("[1, 2]")}},
    {"set", 2, {T("u[1].a.b"), T("[1, 2")}},
    {"insert", 2, {T("t.k[2]"), T("{a = 1}")}},
    {"insert", 2, {T("u[0].a.b"), T("1")}},
    {"rename", 2, {T("t.k"), T("a b")}},
    {"rename", 2, {T("u"), T("\xff")}},
    {"remove", 1, {T("u[1]")}},
    {"table", 1, {T("v.'w x'")}},
    {"table", 1, {T("t")}},
    {"element", 1, {T("u")}},
    {"apply", 1, {T("[[edit]]\nop = 'set'\npath = 't.k'\nvalue = '1'\n[[edit]]\nop = 'rename'\npath = 't.k'\nkey = 'q'\n[[edit]]\nop = 'remove'\npath = 'u[0]'\n")}},
    {"apply", 1, {T("[[edit]]\nop = 'set'\npath = 't.k'\nvalue = '1'\n[[edit]]\nop = 'table'\npath = 't'\n")}},
    {"apply", 1, {T("[[edit]]\nop = 'set'\npath = 't.k'\nvalue = ']'\n")}},
    {"apply-wide", 1, {T("[[edit]]\nop = 'set'\npath = 't.k'\nvalue = '''{\na = 1, # c\n}'''\n")}},
};

#define ROOM 1024

/* what a call answers: its status, how long its text is, in `out`, and its fault as numbers */
typedef struct {
    int status;
    size_t size;
    keep_toml_fault fault;
    uint8_t out[ROOM];
} answer;

static void make_call(size_t number, answer *to) {
    memset(to->out, '#', ROOM);
    to->size = 77;
    to->fault = (keep_toml_fault){77, 77, 77, 77};
    to->status = call_by(calls[number].name, calls[number].count, calls[number].word, doc, to->out, ROOM, &to->size, &to->fault);
}

static int is_untouched(const answer *it) {
    for (size_t i = 0; i < ROOM; i++) {
        if (it->out[i] != '#') return 0;
    }
    return 1;
}

static int is_out_of_memory(const keep_toml_fault *it) {
    return it->kind == KEEP_TOML_IN_MEMORY && it->reason == KEEP_TOML_NO_REASON && it->at == KEEP_TOML_NONE && it->edit == KEEP_TOML_NONE;
}

static int is_right(const answer *it, const answer *wanted) {
    if (live != 0) return 0;
    if (it->status == KEEP_TOML_NO_MEMORY) return has_refused && it->size == 0 && is_out_of_memory(&it->fault) && is_untouched(it);
    if (it->status != wanted->status || memcmp(&it->fault, &wanted->fault, sizeof it->fault)) return 0;
    if (it->status != KEEP_TOML_OK && it->size == 0) return has_refused && is_untouched(it);
    return it->size == wanted->size && !memcmp(it->out, wanted->out, ROOM);
}

/* Refuses one growth of a call after another, until it asks for no more. */
static void try_call(size_t number, const answer *wanted, long *passed, long *failed) {
    static answer got;
    for (long growth = 0;; growth++) {
        live = has_refused = 0;
        growths_left = growth;
        make_call(number, &got);
        growths_left = -1;
        int right = is_right(&got, wanted);
        *passed += right;
        *failed += !right;
        if (!right) printf("FAILED call %zu, growth %ld: status %d, %ld blocks left\n", number, growth, got.status, live);
        if (!has_refused) return;
    }
}

int main(void) {
    static answer wanted;
    long passed = 0, failed = 0;
    for (size_t number = 0; number < sizeof calls / sizeof *calls; number++) {
        make_call(number, &wanted);
        for (refuses_on = 0; refuses_on < 2; refuses_on++) try_call(number, &wanted, &passed, &failed);
    }
    printf("refused growths: %ld passed, %ld failed\n", passed, failed);
    return failed != 0;
}
