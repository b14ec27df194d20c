/* Calls the C library on files that libFuzzer makes. An input is a letter for the command, one for the switches (a, and 1 for
   stable, 2 for exhaustive, 4 for cover), a digit (the allocation of this number fails, 0 for none), and the files with a byte
   0x1e before each: election, certificate, then the violation of `both`, and last an outcome.

   Each file and each answer ends where a page ends that nothing may touch. The same call has to say the same with just enough
   room, and write nothing with less or where it runs out of memory; what explains has to begin with the line that is explained,
   both have to be what each is, what is said of groups goes with the note, tidied prices stay as they are, a report ends with the
   answer's text, an entry of a folder has the line of each of its files, and counts them, a file that isn't refused is told to be
   what it was taken for, and each refusal has a hint or none, but ends.

   The library has no counters for libFuzzer, so the kinds of its answers are counted in their place.
*/
#include "pbaudit.h"
#include <stdio.h>
#include <stdlib.h>
#include <string.h>
#include <sys/mman.h>
#include <unistd.h>

enum { FILES = 4, ELECTION = 0, CERTIFICATE = 1, VIOLATION = 2, OUTCOME = 3, COUNTERS = 1 << 14 };
__attribute__((section("__libfuzzer_extra_counters"))) static uint8_t counters[COUNTERS];

typedef struct { uint8_t *at; size_t length; uint8_t *pages; size_t size; } Bytes;
typedef struct { uint8_t status; Bytes text; } Answer;
static Bytes files[FILES];
static bool has_outcome, stable, exhaustive, cover;
static pbaudit_facts facts;
static long allocations, failing;

extern void *__real_malloc(size_t), *__real_realloc(void *, size_t);
static bool fails(void) { return ++allocations == failing; }
void *__wrap_malloc(size_t size) { return fails() ? NULL : __real_malloc(size); }
void *__wrap_realloc(void *old, size_t size) { return fails() ? NULL : __real_realloc(old, size); }

/* So many bytes with a page behind them that can't be touched. */
static Bytes guarded(size_t length) {
    size_t page = (size_t)sysconf(_SC_PAGESIZE), size = (length + page - 1) / page * page + page;
    uint8_t *pages = mmap(NULL, size, PROT_READ | PROT_WRITE, MAP_PRIVATE | MAP_ANONYMOUS, -1, 0);
    if (pages == MAP_FAILED || mprotect(pages + size - page, page, PROT_NONE))
        abort();
    return (Bytes){pages + size - page - length, length, pages, size};
}

static void let_go(Bytes bytes) { munmap(bytes.pages, bytes.size); }

static void demand(bool holds, const char *what) {
    if (!holds) {
        fprintf(stderr, "the library is wrong: %s\n", what);
        abort();
    }
}

static const char letters[] = "rpvubemt";

static uint8_t question_of(char command) {
    const char *letter = strchr(letters, command);
    return letter && *letter ? (uint8_t)(letter - letters) : 0;
}

static uint8_t call(char command, uint8_t *out, size_t room, size_t *needed) {
    const uint8_t *e = files[ELECTION].at, *c = files[CERTIFICATE].at, *v = files[VIOLATION].at, *o = files[OUTCOME].at;
    size_t el = files[ELECTION].length, cl = files[CERTIFICATE].length, vl = files[VIOLATION].length, ol = files[OUTCOME].length;
    if (command == 'n')
        return pbaudit_note(e, el, c, cl, out, room, needed);
    if (command == 'g')
        return pbaudit_answer_page(e, el, v, 0, o, ol, v, 0, has_outcome, c, cl, v, 0, stable, exhaustive, cover,
                                   (const uint8_t *)"de", 2, &facts, out, room, needed);
    return pbaudit_answer(question_of(command), e, el, o, ol, has_outcome, c, cl, v, vl, stable, exhaustive, cover, &facts, out,
                          room, needed);
}

static uint8_t report(char command, uint8_t *out, size_t room, size_t *needed) {
    const uint8_t *e = files[ELECTION].at, *c = files[CERTIFICATE].at, *v = files[VIOLATION].at, *o = files[OUTCOME].at;
    size_t el = files[ELECTION].length, cl = files[CERTIFICATE].length, vl = files[VIOLATION].length, ol = files[OUTCOME].length;
    return pbaudit_report(question_of(command), e, el, o, ol, has_outcome, c, cl, v, vl, stable, exhaustive, cover, out, room,
                          needed);
}

static bool is_untouched(Bytes out) {
    for (size_t at = 0; at < out.length; at++)
        if (out.at[at] != 0xaa)
            return false;
    return true;
}

/* What a call answers, with just enough room. */
static Answer answer(char command) {
    size_t needed = 0, again = 0;
    uint8_t none, status = call(command, &none, 0, &needed);
    Answer said = {status, guarded(needed)};
    demand(call(command, said.text.at, needed, &again) == status && again == needed, "another answer with room for it");
    if (needed) {
        Bytes less = guarded(needed - 1);
        memset(less.at, 0xaa, less.length);
        demand(call(command, less.at, less.length, &again) == status && again == needed && is_untouched(less),
               "it writes where there is less room");
        let_go(less);
    }
    bool is_refused = needed > 8 && !memcmp(said.text.at, "refused ", 8);
    demand(status <= 2 && (status == 2) == is_refused, "a status that isn't that of the text");
    bool has_end = needed && said.text.at[needed - 1] == '\n';
    demand(has_end || command == 'n' || (command == 'g' && status != 2), "a text without an end");
    return said;
}

/* The same where an allocation fails: out of memory with nothing written, or the usual answer. */
static void starve(char command, Answer usual, long at) {
    Bytes out = guarded(usual.text.length);
    size_t needed = 99;
    memset(out.at, 0xaa, out.length);
    allocations = 0, failing = at;
    uint8_t status = call(command, out.at, out.length, &needed);
    failing = 0;
    if (status == 4)
        demand(needed == 0 && is_untouched(out), "it writes where memory ran out");
    else
        demand(status == usual.status && needed == usual.text.length && !memcmp(out.at, usual.text.at, needed), "another answer");
    let_go(out);
}

/* The report on a question ends as its answer and with its text, behind an object. */
static void demand_report(char command, Answer said) {
    size_t needed = 0;
    uint8_t none;
    demand(report(command, &none, 0, &needed) == said.status && needed > said.text.length, "a report that ends otherwise");
    Bytes out = guarded(needed);
    demand(report(command, out.at, out.length, &needed) == said.status && needed == out.length, "another report with room for it");
    demand(!memcmp(out.at, "{\"hint\":", 8), "a report without an object");
    demand(!memcmp(out.at + out.length - said.text.length, said.text.at, said.text.length), "a report without its text");
    let_go(out);
}

static void demand_line(Answer said, const uint8_t *line, size_t length, const char *what) {
    demand(said.text.length >= length && !memcmp(said.text.at, line, length), what);
}

static void demand_both(Answer both) {
    if (both.status == 2)
        return;
    Answer prices = answer('p');
    demand_line(both, prices.text.at, prices.text.length, "both don't begin with the prices");
    Bytes certificate = files[CERTIFICATE];
    files[CERTIFICATE] = files[VIOLATION];
    Answer violation = answer('v');
    files[CERTIFICATE] = certificate;
    demand(both.text.length == prices.text.length + violation.text.length &&
               !memcmp(both.text.at + prices.text.length, violation.text.at, violation.text.length),
           "both don't end with the violation");
    demand(both.status == (prices.status | violation.status), "the status of both");
    let_go(prices.text), let_go(violation.text);
}

static uint8_t entry(pbaudit_total *total, uint8_t *out, size_t room, size_t *needed) {
    Bytes e = files[ELECTION], c = files[CERTIFICATE], v = files[VIOLATION];
    return pbaudit_folder_entry((const uint8_t *)"x", 1, PBAUDIT_FILE_THERE, e.at, e.length, PBAUDIT_FILE_THERE, c.at, c.length,
                                PBAUDIT_FILE_THERE, v.at, v.length, stable, exhaustive, cover, total, out, room, needed);
}

/* Adds the first line of what a command answers behind the name of a file, and counts that. */
static uint8_t add_line(Bytes *to, const char *name, char command, size_t counts[3]) {
    Answer said = answer(command);
    size_t line = (size_t)((uint8_t *)memchr(said.text.at, '\n', said.text.length) + 1 - said.text.at), ahead = strlen(name);
    demand(to->length + ahead + line <= to->size, "a line that is too long");
    memcpy(to->at + to->length, name, ahead), memcpy(to->at + to->length + ahead, said.text.at, line);
    to->length += ahead + line, counts[said.status]++;
    let_go(said.text);
    return said.status;
}

/* What is told of an entry is an object, and the lines of its files; and these are counted. */
static void demand_entry(void) {
    static uint8_t lines[1 << 16];
    Bytes wanted = {lines, 0, NULL, sizeof lines}, certificate = files[CERTIFICATE];
    size_t counts[3] = {0, 0, 0}, needed = 0;
    bool is_read = add_line(&wanted, "x.pb: ", 'r', counts) == 0;
    counts[0] = 0;
    if (is_read) {
        add_line(&wanted, "x.prices.csv: ", 'p', counts);
        files[CERTIFICATE] = files[VIOLATION];
        add_line(&wanted, "x.violation.csv: ", 'v', counts);
        files[CERTIFICATE] = certificate;
    }
    pbaudit_total total, again;
    uint8_t none, status = entry(&total, &none, 0, &needed);
    Bytes out = guarded(needed);
    demand(entry(&again, out.at, out.length, &needed) == status && needed == out.length, "another entry with room for it");
    demand(status == (counts[2] ? 2 : counts[1] ? 1 : 0) && !memcmp(&total, &again, sizeof total), "the status of an entry");
    demand(total.elections == 1 && total.yes == counts[0] && total.no == counts[1] && total.refused == counts[2], "the counts of an entry");
    demand(needed > wanted.length && !memcmp(out.at + needed - wanted.length, wanted.at, wanted.length) && out.at[0] == '{',
           "an entry without its lines");
    let_go(out);
}

static bool begins(Bytes file, const char *with) {
    return file.length > strlen(with) && !memcmp(file.at, with, strlen(with));
}

static void demand_explained(Answer explained) {
    Answer verdict = answer(begins(files[CERTIFICATE], "pb-violation") ? 'v' : begins(files[CERTIFICATE], "pb-refutation") ? 'u' : 'p');
    if (explained.status != 2 && verdict.status != 2) {
        demand_line(explained, verdict.text.at, verdict.text.length, "an explanation doesn't begin with its verdict");
        demand(explained.status == verdict.status, "the status of an explanation");
    }
    let_go(verdict.text);
}

static void demand_groups(Answer prices) {
    Bytes election = files[ELECTION], certificate = files[CERTIFICATE];
    uint8_t said = pbaudit_groups(election.at, election.length, certificate.at, certificate.length, exhaustive);
    demand(said <= PBAUDIT_STRICT && (said || prices.status == 2), "what is said of groups is no case");
    Answer note = answer('n');
    demand((said == PBAUDIT_LITTLE) == (note.text.length > 0), "a note that doesn't go with what is said of groups");
    let_go(note.text);
}

static void demand_tidied(Answer tidied) {
    if (tidied.status)
        return;
    Bytes certificate = files[CERTIFICATE];
    files[CERTIFICATE] = tidied.text;
    Answer again = answer('t');
    files[CERTIFICATE] = certificate;
    demand(again.text.length == tidied.text.length && !memcmp(again.text.at, tidied.text.at, again.text.length),
           "tidied prices aren't in order");
    let_go(again.text);
}

static uint8_t kind_of(Bytes file) {
    uint8_t kind = 99;
    demand(pbaudit_kind(file.at, file.length, &kind) == 0 && kind <= PBAUDIT_KIND_REFUTATION, "a kind that there isn't");
    return kind;
}

/* A file that isn't refused is told to be what it was taken for. A note is none of these answers, and an explanation and a page take
   a certificate of any kind. */
static void demand_kinds(char command, Answer said) {
    uint8_t election = kind_of(files[ELECTION]), certificate = kind_of(files[CERTIFICATE]), outcome = kind_of(files[OUTCOME]);
    if (said.status == 2 || command == 'n')
        return;
    demand(election == PBAUDIT_KIND_ELECTION, "an election that isn't told to be one");
    if (question_of(command) == PBAUDIT_READ && command != 'g')
        return;
    demand(command == 't' || !has_outcome || outcome == PBAUDIT_KIND_OUTCOME, "an outcome file that isn't told to be one");
    if (command == 'v' || command == 'u')
        demand(certificate == (command == 'v' ? PBAUDIT_KIND_VIOLATION : PBAUDIT_KIND_REFUTATION), "another certificate");
    else
        demand(certificate == PBAUDIT_KIND_PRICES || command == 'e' || command == 'g', "prices that aren't told to be some");
}

static void hint(char command, pbaudit_facts refused) {
    static const uint8_t kinds[] = {9, 0, 1, 2, 2, 3}, inputs[] = {0, ELECTION, OUTCOME, CERTIFICATE, CERTIFICATE, VIOLATION};
    size_t needed;
    uint64_t at;
    demand(refused.input && refused.input <= PBAUDIT_VIOLATION_FILE && refused.fault, "a refusal that isn't one");
    Bytes file = files[inputs[refused.input]], out = guarded(4096);
    uint8_t any = command == 'v' ? 3 : command == 'u' ? 5 : command == 'e' || command == 'g' ? 4 : 2;
    demand(pbaudit_hint(refused.input == PBAUDIT_CERTIFICATE_FILE ? any : kinds[refused.input], refused.fault, refused.record,
                        file.at, file.length, files[ELECTION].at, files[ELECTION].length, refused.input != PBAUDIT_ELECTION_FILE,
                        &at, out.at, out.length, &needed) == 0, "a hint that fails");
    let_go(out);
}

/* Counts the kind of an answer: the command, the status, and what its first line and its length are like. */
static void count(char command, Answer said) {
    uint32_t hash = (uint32_t)command * 31 + said.status;
    for (size_t at = 0; at < said.text.length && at < 40 && said.text.at[at] != '\n'; at++)
        hash = hash * 16777619 ^ said.text.at[at];
    counters[hash % COUNTERS] = 1;
    counters[(hash / 7 + said.text.length / 64) % COUNTERS] = 1;
}

int LLVMFuzzerTestOneInput(const uint8_t *data, size_t size) {
    if (size < 4)
        return -1;
    char command = (char)data[0];
    stable = data[1] & 1, exhaustive = data[1] & 2, cover = data[1] & 4;
    long starved = data[2] >= '1' && data[2] <= '9' ? data[2] - '0' : 0;
    size_t at = 3;
    int given = 0;
    for (int file = 0; file < FILES; file++) {
        if (at < size && data[at] == 0x1e)
            at++, given++;
        const uint8_t *end = at < size ? memchr(data + at, 0x1e, size - at) : NULL;
        size_t length = (end ? (size_t)(end - data) : size) - at;
        files[file] = guarded(length);
        memcpy(files[file].at, data + at, length);
        at += length;
    }
    has_outcome = given == FILES;
    Answer said = answer(command);
    pbaudit_facts told = facts;
    count(command, said);
    if (starved)
        starve(command, said, starved);
    demand_kinds(command, said);
    if (said.status == 2)
        hint(command, told);
    if (command != 'n' && command != 'g')
        demand_report(command, said);
    if (command == 'p')
        demand_groups(said);
    if (command == 'b')
        demand_both(said);
    if (command == 'b' && !has_outcome)
        demand_entry();
    if (command == 'e')
        demand_explained(said);
    if (command == 't')
        demand_tidied(said);
    let_go(said.text);
    for (int file = 0; file < FILES; file++)
        let_go(files[file]);
    return 0;
}
