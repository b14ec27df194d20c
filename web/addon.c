/* An addon for Node, by Node-API: functions of the C library on memory of JavaScript's. Each takes an ArrayBuffer, and then the words of
   its call in pbaudit.h, of which an address is a place in that buffer and never 0. A table says what each parameter is. By it all words
   are checked before anything is called: where one is wrong, an error is thrown and nothing is called. */
#include <gnu/libc-version.h>

#include "pbaudit.h"

/* What is used of Node-API, whose binary form stays as it is. */
typedef struct napi_env__ *napi_env;
typedef struct napi_value__ *napi_value;
typedef struct napi_callback_info__ *napi_callback_info;
typedef napi_value (*napi_callback)(napi_env, napi_callback_info);
enum { NAPI_OK = 0 };
int napi_create_function(napi_env, const char *, size_t, napi_callback, void *, napi_value *);
int napi_create_uint32(napi_env, uint32_t, napi_value *);
int napi_get_arraybuffer_info(napi_env, napi_value, void **, size_t *);
int napi_get_cb_info(napi_env, napi_callback_info, size_t *, napi_value *, napi_value *, void **);
int napi_get_value_bigint_uint64(napi_env, napi_value, uint64_t *, bool *);
int napi_get_value_double(napi_env, napi_value, double *);
int napi_is_arraybuffer(napi_env, napi_value, bool *);
int napi_set_named_property(napi_env, napi_value, const char *, napi_value);
int napi_throw_range_error(napi_env, const char *, const char *);
int napi_throw_type_error(napi_env, const char *, const char *);

/* What a parameter is. BYTES are a file or a text, and ROOM is that of an answer: each is a place with its length. */
enum kind { END, BYTE, BOOL, BYTES, ROOM, NEEDED, KIND, FACTS, TOTAL, GIVEN_TOTAL };

/* Of a number the most that it may be, and of a place its length, unless a word behind it says that, and where it may lie. */
static const struct form {
    size_t most, length, alignment;
    bool is_place, has_length, is_written;
} forms[] = {
    [BYTE] = {.most = UINT8_MAX},
    [BOOL] = {.most = 1},
    [BYTES] = {.alignment = 1, .is_place = true, .has_length = true},
    [ROOM] = {.alignment = 1, .is_place = true, .has_length = true, .is_written = true},
    [NEEDED] = {.length = sizeof(size_t), .alignment = _Alignof(size_t), .is_place = true, .is_written = true},
    [KIND] = {.length = 1, .alignment = 1, .is_place = true, .is_written = true},
    [FACTS] = {.length = sizeof(pbaudit_facts), .alignment = _Alignof(pbaudit_facts), .is_place = true, .is_written = true},
    [TOTAL] = {.length = sizeof(pbaudit_total), .alignment = _Alignof(pbaudit_total), .is_place = true, .is_written = true},
    [GIVEN_TOTAL] = {.length = sizeof(pbaudit_total), .alignment = _Alignof(pbaudit_total), .is_place = true},
};

/* A word as the library takes it: a number, or an address and how long its place is. */
struct word {
    uint64_t number;
    void *at;
};
_Static_assert(sizeof(size_t) == sizeof(uint64_t), "a length is a word");

static uint8_t report(const struct word *w) {
    return pbaudit_report(w[0].number, w[1].at, w[2].number, w[3].at, w[4].number, w[5].number, w[6].at, w[7].number, w[8].at,
                          w[9].number, w[10].number, w[11].number, w[12].number, w[13].at, w[14].number, w[15].at);
}

static uint8_t answer_page(const struct word *w) {
    return pbaudit_answer_page(w[0].at, w[1].number, w[2].at, w[3].number, w[4].at, w[5].number, w[6].at, w[7].number, w[8].number,
                               w[9].at, w[10].number, w[11].at, w[12].number, w[13].number, w[14].number, w[15].number, w[16].at,
                               w[17].number, w[18].at, w[19].at, w[20].number, w[21].at);
}

static uint8_t groups_page(const struct word *w) {
    return pbaudit_groups_page(w[0].at, w[1].number, w[2].at, w[3].number, w[4].at, w[5].number, w[6].at, w[7].number, w[8].number,
                               w[9].number, w[10].at, w[11].number, w[12].at, w[13].at, w[14].number, w[15].at);
}

static uint8_t folder_entry(const struct word *w) {
    return pbaudit_folder_entry(w[0].at, w[1].number, w[2].number, w[3].at, w[4].number, w[5].number, w[6].at, w[7].number,
                                w[8].number, w[9].at, w[10].number, w[11].number, w[12].number, w[13].number, w[14].at, w[15].at,
                                w[16].number, w[17].at);
}

static uint8_t folder_total(const struct word *w) { return pbaudit_folder_total(w[0].at, w[1].at, w[2].number, w[3].at); }

static uint8_t file_kind(const struct word *w) { return pbaudit_kind(w[0].at, w[1].number, w[2].at); }

/* The functions, and their parameters as the header has them. */
enum { MOST_KINDS = 16, MOST_WORDS = 2 * MOST_KINDS };
static const struct function {
    const char *name;
    uint8_t (*call)(const struct word *);
    enum kind kinds[MOST_KINDS];
} functions[] = {
    {"pbaudit_report", report, {BYTE, BYTES, BYTES, BOOL, BYTES, BYTES, BOOL, BOOL, BOOL, ROOM, NEEDED}},
    {"pbaudit_answer_page", answer_page,
     {BYTES, BYTES, BYTES, BYTES, BOOL, BYTES, BYTES, BOOL, BOOL, BOOL, BYTES, FACTS, ROOM, NEEDED}},
    {"pbaudit_groups_page", groups_page, {BYTES, BYTES, BYTES, BYTES, BOOL, BOOL, BYTES, FACTS, ROOM, NEEDED}},
    {"pbaudit_folder_entry", folder_entry,
     {BYTES, BYTE, BYTES, BYTE, BYTES, BYTE, BYTES, BOOL, BOOL, BOOL, TOTAL, ROOM, NEEDED}},
    {"pbaudit_folder_total", folder_total, {GIVEN_TOTAL, ROOM, NEEDED}},
    {"pbaudit_kind", file_kind, {BYTES, KIND}},
};

enum verdict { RIGHT, WRONG_TYPE, WRONG_RANGE };

/* A number that is whole and at most so much. */
static enum verdict number_in(napi_env env, napi_value given, size_t most, uint64_t *number) {
    double value;
    if (napi_get_value_double(env, given, &value) != NAPI_OK)
        return WRONG_TYPE;
    if (!(value >= 0 && value <= most))
        return WRONG_RANGE;
    *number = value;
    return *number == value ? RIGHT : WRONG_RANGE;
}

/* A bigint that 64 bits hold. */
static enum verdict bigint_in(napi_env env, napi_value given, uint64_t *number) {
    bool is_kept;
    if (napi_get_value_bigint_uint64(env, given, number, &is_kept) != NAPI_OK)
        return WRONG_TYPE;
    return is_kept ? RIGHT : WRONG_RANGE;
}

/* A place of the memory, by one word or two, as an address and perhaps a length. */
static enum verdict place_in(napi_env env, const napi_value *given, const struct form *form, uint8_t *memory, uint64_t size,
                             struct word *words) {
    uint64_t at, length = form->length;
    enum verdict verdict = bigint_in(env, given[0], &at);
    if (verdict == RIGHT && form->has_length)
        verdict = bigint_in(env, given[1], &length);
    if (verdict != RIGHT)
        return verdict;
    if (at == 0 || at > size || length > size - at || (uintptr_t)(memory + at) % form->alignment != 0)
        return WRONG_RANGE;
    words[0].at = memory + at;
    words[0].number = length;
    if (form->has_length)
        words[1].number = length;
    return RIGHT;
}

/* Whether two places have a byte in common. */
static bool overlap(const struct word *one, const struct word *other) {
    const uint8_t *a = one->at, *b = other->at;
    return one->number != 0 && other->number != 0 && a < b + other->number && b < a + one->number;
}

/* Reads all words of a call: as many as its parameters have, each what it has to be. No place that is written overlaps another. */
static enum verdict words_in(napi_env env, const napi_value *given, size_t count, const enum kind *kinds, struct word *words) {
    size_t at = 0, places = 0, size;
    struct { const struct word *word; bool is_written; } place[MOST_KINDS];
    void *memory;
    bool is_buffer;
    enum verdict verdict = RIGHT;
    if (count == 0 || napi_is_arraybuffer(env, given[0], &is_buffer) != NAPI_OK || !is_buffer ||
        napi_get_arraybuffer_info(env, given[0], &memory, &size) != NAPI_OK)
        return WRONG_TYPE;
    given++, count--;
    for (size_t i = 0; i < MOST_KINDS && kinds[i] != END && verdict == RIGHT; i++) {
        const struct form *form = &forms[kinds[i]];
        size_t taken = form->has_length ? 2 : 1;
        if (count - at < taken)
            return WRONG_TYPE;
        if (form->is_place) {
            verdict = place_in(env, given + at, form, memory, size, words + at);
            place[places].word = words + at;
            place[places++].is_written = form->is_written;
        } else {
            verdict = number_in(env, given[at], form->most, &words[at].number);
        }
        at += taken;
    }
    if (verdict != RIGHT)
        return verdict;
    for (size_t i = 0; i < places; i++)
        for (size_t j = 0; j < i; j++)
            if ((place[i].is_written || place[j].is_written) && overlap(place[i].word, place[j].word))
                return WRONG_RANGE;
    return at == count ? RIGHT : WRONG_TYPE;
}

static napi_value call(napi_env env, napi_callback_info info) {
    napi_value given[1 + MOST_WORDS], answer;
    struct word words[MOST_WORDS];
    size_t count = 1 + MOST_WORDS;
    void *data;
    if (napi_get_cb_info(env, info, &count, given, NULL, &data) != NAPI_OK)
        return NULL;
    const struct function *function = data;
    switch (words_in(env, given, count, function->kinds, words)) {
    case RIGHT:
        return napi_create_uint32(env, function->call(words), &answer) == NAPI_OK ? answer : NULL;
    case WRONG_TYPE:
        napi_throw_type_error(env, NULL, "a call of the library has other words than it takes");
        return NULL;
    default:
        napi_throw_range_error(env, NULL, "a word of a call of the library is out of its range");
        return NULL;
    }
}

/* What Node calls: it puts the functions and the number of the interface into an object. Of the system it asks which glibc there is, so
   that another C library, which hasn't that function, doesn't load the addon. */
__attribute__((visibility("default"))) napi_value napi_register_module_v1(napi_env env, napi_value exports) {
    napi_value made;
    if (!gnu_get_libc_version() || napi_create_uint32(env, PBAUDIT_INTERFACE, &made) != NAPI_OK ||
        napi_set_named_property(env, exports, "interface", made) != NAPI_OK)
        return NULL;
    for (size_t i = 0; i < sizeof functions / sizeof *functions; i++)
        if (napi_create_function(env, functions[i].name, (size_t)-1, call, (void *)&functions[i], &made) != NAPI_OK ||
            napi_set_named_property(env, exports, functions[i].name, made) != NAPI_OK)
            return NULL;
    return exports;
}
