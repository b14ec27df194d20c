/* Loads the addon for Node (web/addon.c) where there is no Node, with as much of Node-API as it takes, and has it report on prices: what
   `pbaudit_report` answers goes to standard output, and its status is that of the run; 99 where the addon threw an error.

   addon_host ADDON ELECTION CERTIFICATE */
#include <dlfcn.h>
#include <stdbool.h>
#include <stdint.h>
#include <stdio.h>
#include <stdlib.h>
#include <string.h>

enum { NUMBER, BIGINT, BUFFER, OTHER, THROWN = 99, SIZE = 1 << 24, STEP = 1 << 22 };

/* A value, a function's call, and what is put into an object. */
typedef struct value { int type; double number; uint64_t whole; void *bytes; size_t length; } value;
typedef value *(*callback)(void *, void *);
static struct { callback call; void *data; value *words; size_t count; } asked;
static const void *thrown;

static value *made(value given) { return memcpy(malloc(sizeof given), &given, sizeof given); }

int napi_create_function(void *env, const char *name, size_t length, callback call, void *data, value **made_of) {
    (void)env, (void)length;
    if (!strcmp(name, "pbaudit_report"))
        asked.call = call, asked.data = data;
    *made_of = made((value){.type = OTHER});
    return 0;
}
int napi_create_uint32(void *env, uint32_t number, value **into) { (void)env; *into = made((value){.type = NUMBER, .number = number}); return 0; }
int napi_get_arraybuffer_info(void *env, value *given, void **bytes, size_t *length) {
    (void)env;
    *bytes = given->bytes, *length = given->length;
    return 0;
}
int napi_get_cb_info(void *env, void *info, size_t *count, value **words, value **self, void **data) {
    (void)env, (void)info, (void)self;
    for (size_t i = 0; i < *count && i < asked.count; i++)
        words[i] = &asked.words[i];
    *count = asked.count, *data = asked.data;
    return 0;
}
int napi_get_value_bigint_uint64(void *env, value *given, uint64_t *whole, bool *is_kept) {
    (void)env;
    *whole = given->whole, *is_kept = true;
    return given->type != BIGINT;
}
int napi_get_value_double(void *env, value *given, double *number) { (void)env; *number = given->number; return given->type != NUMBER; }
int napi_is_arraybuffer(void *env, value *given, bool *is_buffer) { (void)env; *is_buffer = given->type == BUFFER; return 0; }
int napi_set_named_property(void *env, value *object, const char *name, value *given) { (void)env, (void)object, (void)name, (void)given; return 0; }
int napi_throw_range_error(void *env, const char *code, const char *text) { (void)env, (void)code; thrown = text; return 0; }
int napi_throw_type_error(void *env, const char *code, const char *text) { (void)env, (void)code; thrown = text; return 0; }

static uint64_t put(uint8_t *memory, uint64_t at, const char *path) {
    FILE *file = fopen(path, "rb");
    size_t length = file ? fread(memory + at, 1, STEP, file) : 0;
    if (!file || fclose(file))
        exit(1);
    return length;
}

int main(int count, char **paths) {
    void *addon = count == 4 ? dlopen(paths[1], RTLD_NOW) : NULL;
    value *(*begin)(void *, value *) = addon ? (value *(*)(void *, value *))dlsym(addon, "napi_register_module_v1") : NULL;
    uint8_t *memory = calloc(1, SIZE);
    if (!begin || !begin(NULL, made((value){.type = OTHER})) || !asked.call) {
        fprintf(stderr, "the addon isn't loaded: %s\n", addon ? "it lacks a function" : dlerror());
        return 1;
    }
    uint64_t election = 16, certificate = election + STEP, out = certificate + STEP, needed = out + STEP, length;
#define WHOLE(n) {.type = BIGINT, .whole = (n)}
#define PLAIN(n) {.type = NUMBER, .number = (n)}
    value words[] = {
        {.type = BUFFER, .bytes = memory, .length = SIZE}, PLAIN(1), WHOLE(election), WHOLE(put(memory, election, paths[2])), WHOLE(election),
        WHOLE(0), PLAIN(0), WHOLE(certificate), WHOLE(put(memory, certificate, paths[3])), WHOLE(election), WHOLE(0), PLAIN(0), PLAIN(1),
        PLAIN(0), WHOLE(out), WHOLE(STEP), WHOLE(needed)};
    asked.words = words, asked.count = sizeof words / sizeof *words;
    value *answer = asked.call(NULL, NULL);
    if (thrown || !answer)
        return THROWN;
    memcpy(&length, memory + needed, sizeof length);
    fwrite(memory + out, 1, length, stdout);
    words[16].whole++;
    return asked.call(NULL, NULL) || !thrown ? 1 : (int)answer->number;
}
