/* Calls the C library on files, in one of these ways:

   library once COMMAND SWITCHES ELECTION [CERTIFICATE [OUTCOME]]
   library once both SWITCHES ELECTION PRICES VIOLATION [OUTCOME]
   library once groups_by_cost SWITCHES ELECTION [OUTCOME], and groups_by_count, explain_groups_by_cost and so on
   library once note SWITCHES ELECTION CERTIFICATE
   library once groups SWITCHES ELECTION CERTIFICATE
   library once kind - FILE            the text is its number
   library once hint INPUT:NUMBER:RECORD FILE [ELECTION]
   library once report-COMMAND ..  the same of pbaudit_report
   library once entry SWITCHES ELECTION [PRICES [VIOLATION]]   the files are of the name `town`
   library once total ELECTIONS:YES:NO:REFUSED FILE            the file isn't looked at
                     prints the text, and ends with the status; each buffer is as large as it has to be, and no larger.
                     It calls the functions of the header that have names of commands
   library facts ..  calls pbaudit_answer, as those below do, and prints the bytes of its facts ahead of the text
   library memory ..  makes the Nth allocation fail, and then it and all later ones, for each N; prints how many failed.
                     What comes then has to be status 4 with nothing written, or the ordinary answer, and nothing stays
                     allocated
   library stack ..   calls from a thread with a stack of 128 KiB; prints how many bytes of it were used

   SWITCHES has s for stable, e for exhaustive and c for cover, or is '-'. It is linked with --wrap for malloc, realloc
   and free.
*/
#include "pbaudit.h"
#include <pthread.h>
#include <stdio.h>
#include <stdlib.h>
#include <string.h>
#include <sys/mman.h>

extern void *__real_malloc(size_t), *__real_realloc(void *, size_t);
extern void __real_free(void *);
static long before_failure = -1, failures_left, failed, alive;

static int fails(void) {
    if (before_failure < 0 || before_failure-- > 0)
        return 0;
    failed++;
    before_failure = --failures_left > 0 ? 0 : -1;
    return 1;
}

void *__wrap_malloc(size_t size) {
    void *given = fails() ? NULL : __real_malloc(size);
    alive += given != NULL;
    return given;
}
void *__wrap_realloc(void *old, size_t size) {
    void *given = fails() ? NULL : __real_realloc(old, size);
    alive += given != NULL && !old;
    return given;
}
void __wrap_free(void *old) {
    alive -= old != NULL;
    __real_free(old);
}

static struct { uint8_t *at; size_t length; } files[4];
static int given, by_number, as_report;
static const char *command, *switches;
static const char *const questions[] = {"read", "prices", "violation", "refutation", "both", "explain", "margins", "tidy",
                                        "groups_by_cost", "groups_by_count", "explain_groups_by_cost",
                                        "explain_groups_by_count", "group_margins_by_cost", "group_margins_by_count"};
static pbaudit_facts facts;
static uint8_t *out;
static size_t room, needed;
static uint8_t status;
#define IN(file) files[file].at, files[file].length
#define MODE strchr(switches, 's') != 0, strchr(switches, 'e') != 0, strchr(switches, 'c') != 0
#define OUT out, room, &needed

static void call_hint(void) {
    unsigned input, number;
    unsigned long long record;
    uint64_t line;
    if (sscanf(switches, "%u:%u:%llu", &input, &number, &record) != 3)
        exit(3);
    status = pbaudit_hint((uint8_t)input, number, record, IN(0), IN(1), given == 2, &line, OUT);
}

/* The number of the kind as a digit. */
static void call_kind(void) {
    uint8_t kind = 99;
    status = pbaudit_kind(IN(0), &kind);
    needed = status ? 0 : 1;
    if (kind > PBAUDIT_KIND_REFUTATION || (status && kind))
        exit(9);
    if (needed && needed <= room)
        out[0] = (uint8_t)('0' + kind);
}

static pbaudit_total total;

/* The total counts one election, and none where memory ran out. */
static void call_entry(void) {
    uint8_t has_prices = given > 1, has_violation = given > 2;
    static const uint8_t name[] = {'t', 'o', 'w', 'n'};
    status = pbaudit_folder_entry(name, sizeof name, PBAUDIT_FILE_THERE, IN(0), has_prices, IN(1), has_violation, IN(2), MODE, &total, OUT);
    if (total.elections != (status < 4) || (status == 4 && (total.yes || total.no || total.refused)))
        exit(9);
}

static void call_total(void) {
    pbaudit_total of;
    if (sscanf(switches, "%zu:%zu:%zu:%zu", &of.elections, &of.yes, &of.no, &of.refused) != 4)
        exit(3);
    status = pbaudit_folder_total(&of, OUT);
}

static uint8_t refuted(int has_outcome) {
    int is_stable = strchr(switches, 's') != 0;
    return (is_stable ? pbaudit_stable_refutation : pbaudit_refutation)(IN(0), IN(2), has_outcome, IN(1), OUT);
}

static void call(void) {
    uint8_t question = PBAUDIT_READ;
    while (question <= PBAUDIT_GROUP_MARGINS_BY_COUNT && strcmp(command, questions[question]))
        question++;
    int outcome = question == PBAUDIT_BOTH ? 3 : question >= PBAUDIT_GROUPS_BY_COST ? 1 : 2, has_outcome = given == outcome + 1;
    if (!strcmp(command, "hint"))
        call_hint();
    else if (!strcmp(command, "kind"))
        call_kind();
    else if (!strcmp(command, "entry"))
        call_entry();
    else if (!strcmp(command, "total"))
        call_total();
    else if (!strcmp(command, "note"))
        status = pbaudit_note(IN(0), IN(1), OUT);
    else if (!strcmp(command, "groups"))
        status = pbaudit_groups(IN(0), IN(1), strchr(switches, 'e') != 0), needed = 0;
    else if (as_report)
        status = pbaudit_report(question, IN(0), IN(outcome), has_outcome, IN(1), IN(2), MODE, OUT);
    else if (by_number)
        status = pbaudit_answer(question, IN(0), IN(outcome), has_outcome, IN(1), IN(2), MODE, &facts, OUT);
    else switch (question) {
        case PBAUDIT_READ: status = pbaudit_read(IN(0), OUT); break;
        case PBAUDIT_PRICES: status = pbaudit_prices(IN(0), IN(2), has_outcome, IN(1), MODE, OUT); break;
        case PBAUDIT_VIOLATION: status = pbaudit_violation(IN(0), IN(2), has_outcome, IN(1), OUT); break;
        case PBAUDIT_REFUTATION: status = refuted(has_outcome); break;
        case PBAUDIT_BOTH: status = pbaudit_both(IN(0), IN(3), has_outcome, IN(1), IN(2), MODE, OUT); break;
        case PBAUDIT_EXPLAIN: status = pbaudit_explain(IN(0), IN(2), has_outcome, IN(1), MODE, OUT); break;
        case PBAUDIT_MARGINS: status = pbaudit_margins(IN(0), IN(2), has_outcome, IN(1), OUT); break;
        case PBAUDIT_TIDY: status = pbaudit_tidy(IN(0), IN(1), OUT); break;
        case PBAUDIT_GROUPS_BY_COST: status = pbaudit_groups_by_cost(IN(0), IN(1), has_outcome, OUT); break;
        case PBAUDIT_GROUPS_BY_COUNT: status = pbaudit_groups_by_count(IN(0), IN(1), has_outcome, OUT); break;
        case PBAUDIT_EXPLAIN_GROUPS_BY_COST: status = pbaudit_explain_groups(IN(0), IN(1), has_outcome, false, OUT); break;
        case PBAUDIT_EXPLAIN_GROUPS_BY_COUNT: status = pbaudit_explain_groups(IN(0), IN(1), has_outcome, true, OUT); break;
        case PBAUDIT_GROUP_MARGINS_BY_COST: status = pbaudit_group_margins(IN(0), IN(1), has_outcome, false, OUT); break;
        default: status = pbaudit_group_margins(IN(0), IN(1), has_outcome, true, OUT);
    }
}

static void *call_in_thread(void *unused) {
    call();
    return unused;
}

static void fail(const char *why, long at) {
    printf("%s: %s at %ld\n", command, why, at);
    exit(9);
}

static void load(int at, const char *path) {
    FILE *file = fopen(path, "rb");
    if (!file || fseek(file, 0, SEEK_END))
        fail("a file can't be read", at);
    files[at].length = (size_t)ftell(file);
    files[at].at = __real_malloc(files[at].length ? files[at].length : 1);
    rewind(file);
    if (fread(files[at].at, 1, files[at].length, file) != files[at].length)
        fail("a file can't be read", at);
    fclose(file);
}

static int has_told(pbaudit_facts wanted) { return !memcmp(&facts, &wanted, sizeof facts); }

static int tells_facts(void) {
    static const char *const others[] = {"note", "hint", "groups", "kind", "entry", "total"};
    for (size_t at = 0; at < sizeof others / sizeof *others; at++)
        if (!strcmp(command, others[at]))
            return 0;
    return !as_report;
}

static void fail_each(void) {
    pbaudit_facts told = facts, untold = tells_facts() ? (pbaudit_facts){0} : told;
    uint8_t wanted_status = status, *wanted = out, *spare = __real_malloc(room + 1);
    out = spare;
    for (long all = 0; all < 2; all++) {
        for (long at = 0;; at++) {
            memset(out, 0xaa, room), memset(&facts, 0xaa, sizeof facts), needed = 99;
            failed = 0, before_failure = at, failures_left = all ? 1L << 40 : 1;
            call();
            before_failure = -1;
            if (alive)
                fail("something stays allocated", at);
            int is_ordinary = status == wanted_status && needed == room && !memcmp(out, wanted, room) && has_told(told);
            int is_wanting = status == 4 && !needed && (!room || out[0] == 0xaa) && has_told(untold);
            if (!is_ordinary && !(failed && is_wanting))
                fail(failed ? "no status 4, or something was written" : "another answer", at);
            if (!failed) {
                printf("%ld\n", at);
                break;
            }
        }
    }
    __real_free(spare);
    out = wanted;
}

static void measure_stack(void) {
    size_t size = 128 * 1024, used = 0;
    uint8_t *stack = mmap(0, size, PROT_READ | PROT_WRITE, MAP_PRIVATE | MAP_ANONYMOUS, -1, 0);
    pthread_attr_t attributes;
    pthread_t thread;
    memset(stack, 0x5a, size);
    pthread_attr_init(&attributes);
    if (pthread_attr_setstack(&attributes, stack, size) || pthread_create(&thread, &attributes, call_in_thread, NULL))
        fail("no thread", 0);
    pthread_join(thread, NULL);
    while (used < size && stack[used] == 0x5a)
        used++;
    printf("%zu\n", size - used);
}

int main(int count, char **words) {
    static uint8_t none;
    if (count < 5)
        return 3;
    as_report = !strncmp(words[2], "report-", 7);
    command = words[2] + (as_report ? 7 : 0), switches = words[3], by_number = strcmp(words[1], "once") != 0;
    memset(&facts, 0xaa, sizeof facts);
    files[1].at = files[2].at = files[3].at = &none;
    for (given = 0; given < count - 4 && given < 4; given++)
        load(given, words[4 + given]);
    out = &none;
    call();
    out = __real_malloc(needed ? needed : 1), room = needed;
    call();
    if (alive)
        fail("something stays allocated", 0);
    int is_told = !by_number || !strcmp(words[1], "facts");
    if (is_told)
        fwrite(&facts, by_number ? sizeof facts : 0, 1, stdout), fwrite(out, 1, needed, stdout);
    else if (!strcmp(words[1], "memory"))
        fail_each();
    else
        measure_stack();
    __real_free(out);
    for (int i = 0; i < given; i++)
        __real_free(files[i].at);
    return is_told ? status : 0;
}
