/* pbaudit: an auditor for participatory budgeting outcomes, over files in memory.
 *
 * Each function reads whole files, given as a pointer and a length in bytes, and answers what the command of the same
 * name prints. The result is that command's exit status (but for pbaudit_groups and pbaudit_kind, which answer a number
 * alone):
 *   0  yes: the answer is yes, or what was asked for is given
 *   1  no: a condition or a test failed, which the text names
 *   2  refused: a file has an error; the text says which file, and the first thing wrong
 *   3  there is no such question or language, or entry of a folder: *needed is 0 and out is as it was
 *   4  out of memory: likewise (that this comes only after a failed allocation is tested, and not proved)
 * Otherwise *needed is the length of the text in bytes, which ends in LF and has no NUL after it. If it is at most room,
 * the text stands at the front of out, and the rest of out is as it was. If it is more, out is as it was: call again
 * with as much room. *facts tells in numbers how the answer ends.
 *
 * A file of more than 2^28 bytes is refused. The files' formats, the texts and the numbers of refusals are those of the
 * program (docs/FORMATS.md).
 *
 * What the caller has to make sure of, since nothing checks it:
 * - No pointer is null, even if its length or room is 0, nor is outcome if has_outcome is false, or a file of an entry that
 *   is missing or unread.
 * - A file holds as many bytes as its length says, even one of these, and out as many as room.
 * - out, *needed, *facts and *total overlap neither each other nor a file, and nothing else touches them during the call.
 *   The files do not change during the call.
 * - A bool is 0 or 1.
 * - malloc, realloc and free are one allocator's. No call from a signal handler, nor from the forked child of a
 *   process with threads.
 * - The stack has room: 128 KiB is enough where it was measured.
 * The functions keep nothing between calls, so threads may call them side by side.
 *
 * Which to call: pbaudit_report tells all of an answer, for programs; pbaudit_answer its text, and how it ends in numbers.
 * pbaudit_json, pbaudit_note, pbaudit_groups and pbaudit_hint are older, and a report has what they tell: its second line is
 * what pbaudit_json answers; after a yes to prices `notes` has the note of pbaudit_note, and `groups` in the object of the
 * prices the case of pbaudit_groups, as "little", "weak" or "strict"; and after a refusal `hint` has the line and the
 * sentences of pbaudit_hint.
 */
#ifndef PBAUDIT_H
#define PBAUDIT_H

#include <stdbool.h>
#include <stddef.h>
#include <stdint.h>

/* The version of this interface: the number behind libpbaudit.so, and in the version of its symbols, PBAUDIT_2. It grows where a
 * program that was made with an older header may get another answer or none: where a function goes, takes other arguments or
 * answers in another form, a type is laid out anew, or a number stands for something else. What is added to it leaves it as it
 * is. So a program runs only with libraries of the number with which it was made. 1 is that of 0.3.0; with 2 pbaudit_json and
 * pbaudit_report answer margins, also of groups, with an object, where they gave none. */
#define PBAUDIT_INTERFACE 2

#ifdef __cplusplus
extern "C" {
#endif

/* A condition or a test that fails: its number, and the voter and the project at which it does, from 1 in the order of the
 * ballots and of the election. Each is 0 where there is none. */
typedef struct {
    uint32_t number, voter, project;
} pbaudit_culprit;

/* The numbers of conditions and tests. */
enum {
    PBAUDIT_FEASIBLE = 1, PBAUDIT_EXHAUSTIVE, PBAUDIT_COVER, PBAUDIT_C1, PBAUDIT_C2, PBAUDIT_C3, PBAUDIT_C4, PBAUDIT_C5,
    PBAUDIT_S5,
    PBAUDIT_V1 = 11, PBAUDIT_V2, PBAUDIT_V3, PBAUDIT_V4,
    PBAUDIT_U1 = 21, PBAUDIT_U2, PBAUDIT_U3,
    /* No group of voters falls short. The project is the one for which a group does. */
    PBAUDIT_EJR_PLUS = 31
};

/* How an answer ends, in numbers, of which each is 0 where there is nothing to tell. After 2: which input is refused, the
 * number of its fault, and the record at which that stands, from 1, or 0. After 1: the first condition on prices that
 * fails; the first test of a violation, or of a refutation, that fails (of PBAUDIT_BOTH each of the two), or
 * PBAUDIT_EJR_PLUS. */
typedef struct {
    uint32_t input, fault;
    uint64_t record;
    pbaudit_culprit condition, test;
} pbaudit_facts;

/* The inputs. The last two are those of PBAUDIT_BOTH, and take the place of the certificate there. */
enum {
    PBAUDIT_ELECTION_FILE = 1, PBAUDIT_OUTCOME_FILE, PBAUDIT_CERTIFICATE_FILE, PBAUDIT_PRICES_FILE,
    PBAUDIT_VIOLATION_FILE
};

/* What can be asked. Each is the command of the program of the same name; those on groups are `groups`, `explain --groups`
 * and `margins --groups`, by the two measures of --satisfaction.
 *
 *                                   takes                                           result
 *   PBAUDIT_READ                    the election                                    0, 2, 4
 *   PBAUDIT_PRICES                  and outcome, price certificate, switches        0, 1, 2, 4
 *   PBAUDIT_VIOLATION               and outcome, violation certificate              0, 1, 2, 4
 *   PBAUDIT_REFUTATION              and outcome, refutation, stable                 0, 1, 2, 4
 *   PBAUDIT_BOTH                    and outcome, price certificate, violation       0, 1, 2, 4
 *                                   certificate, switches
 *   PBAUDIT_EXPLAIN                 and outcome, any certificate, switches          0, 1, 2, 4
 *   PBAUDIT_MARGINS                 and outcome, price certificate                  0, 2, 4
 *   PBAUDIT_TIDY                    and price certificate                           0, 2, 4
 *   PBAUDIT_GROUPS_BY_COST          and outcome                                     0, 1, 2, 4
 *   PBAUDIT_GROUPS_BY_COUNT         and outcome                                     0, 1, 2, 4
 *   PBAUDIT_EXPLAIN_GROUPS_BY_COST  and outcome                                     0, 1, 2, 4
 *   PBAUDIT_EXPLAIN_GROUPS_BY_COUNT and outcome                                     0, 1, 2, 4
 *   PBAUDIT_GROUP_MARGINS_BY_COST   and outcome                                     0, 2, 4
 *   PBAUDIT_GROUP_MARGINS_BY_COUNT  and outcome                                     0, 2, 4
 */
enum {
    PBAUDIT_READ = 0, PBAUDIT_PRICES, PBAUDIT_VIOLATION, PBAUDIT_REFUTATION, PBAUDIT_BOTH, PBAUDIT_EXPLAIN,
    PBAUDIT_MARGINS, PBAUDIT_TIDY, PBAUDIT_GROUPS_BY_COST, PBAUDIT_GROUPS_BY_COUNT, PBAUDIT_EXPLAIN_GROUPS_BY_COST,
    PBAUDIT_EXPLAIN_GROUPS_BY_COUNT, PBAUDIT_GROUP_MARGINS_BY_COST, PBAUDIT_GROUP_MARGINS_BY_COUNT
};

/* The answer to a question. What the question doesn't take isn't looked at, but no pointer may be null. The outcome is
 * that of an outcome file where has_outcome, and else the election's own, the column `selected`. Of prices stable asks for
 * S5 in place of C5, exhaustive for the condition Exhaustive (which the program asks for unless it is left out), and cover
 * for the condition Cover. Of a refutation stable asks whether it refutes stable prices alone, where it doesn't refute
 * all. */
uint8_t pbaudit_answer(uint8_t question,
                       const uint8_t *election, size_t election_length,
                       const uint8_t *outcome, size_t outcome_length, bool has_outcome,
                       const uint8_t *certificate, size_t certificate_length,
                       const uint8_t *violation, size_t violation_length,
                       bool stable, bool exhaustive, bool cover,
                       pbaudit_facts *facts, uint8_t *out, size_t room, size_t *needed);

/* The answer to the same question as one JSON object, for programs: the line that the command prints with --json, which
 * docs/JSON.md describes. Its `kind` is "election", "prices", "violation", "refutation", "both", "margins", "groups" or
 * "group_margins", that of PBAUDIT_EXPLAIN by its certificate, and of a refusal "refusal". PBAUDIT_TIDY is no object: its
 * text is that of pbaudit_answer, also where a file is refused. The rest is as there, without facts. */
uint8_t pbaudit_json(uint8_t question,
                     const uint8_t *election, size_t election_length,
                     const uint8_t *outcome, size_t outcome_length, bool has_outcome,
                     const uint8_t *certificate, size_t certificate_length,
                     const uint8_t *violation, size_t violation_length,
                     bool stable, bool exhaustive, bool cover,
                     uint8_t *out, size_t room, size_t *needed);

/* All that is to be told of the answer to the same question, for programs; the files are read once, and one that is refused
 * once more. The text has three parts, one behind the other:
 * 1. a line, a JSON object of what stands beside the answer:
 *      {"hint":null,"notes":["note: num_votes says 4 and there are 3"],"refusal":null}
 *    `notes` are those that the program prints on standard error, or `read` among its lines. Where a file is refused,
 *    `refusal` is the object of that, as of pbaudit_json, and `hint` what pbaudit_hint tells: {"line":5,"sentences":[..]},
 *    with the line, or null, and a text for each sentence, or null where nothing is told;
 * 2. the line of pbaudit_json, but not of PBAUDIT_TIDY, which is no object;
 * 3. the text of pbaudit_answer.
 * The rest is as for pbaudit_json. */
uint8_t pbaudit_report(uint8_t question,
                       const uint8_t *election, size_t election_length,
                       const uint8_t *outcome, size_t outcome_length, bool has_outcome,
                       const uint8_t *certificate, size_t certificate_length,
                       const uint8_t *violation, size_t violation_length,
                       bool stable, bool exhaustive, bool cover,
                       uint8_t *out, size_t room, size_t *needed);

/* A page in plain words about a certificate of any kind, as one HTML file in UTF-8, which ends in </html> and no LF.
 * The page shows the files by these names. language is a code: en, pl, de or fr; 3 where there is no such language. The
 * rest is as for PBAUDIT_EXPLAIN, and where a file is refused, the text is the line of the refusal. 0, 1, 2, 3 or 4. */
uint8_t pbaudit_answer_page(const uint8_t *election, size_t election_length,
                            const uint8_t *election_name, size_t election_name_length,
                            const uint8_t *outcome, size_t outcome_length,
                            const uint8_t *outcome_name, size_t outcome_name_length, bool has_outcome,
                            const uint8_t *certificate, size_t certificate_length,
                            const uint8_t *certificate_name, size_t certificate_name_length,
                            bool stable, bool exhaustive, bool cover,
                            const uint8_t *language, size_t language_length,
                            pbaudit_facts *facts, uint8_t *out, size_t room, size_t *needed);

/* A page in plain words about groups of voters that fall short, which needs no certificate: by counting if by_count, and
 * otherwise by cost. 0 if none does, 1 if one does. The rest is as for pbaudit_answer_page. 0, 1, 2, 3 or 4. */
uint8_t pbaudit_groups_page(const uint8_t *election, size_t election_length,
                            const uint8_t *election_name, size_t election_name_length,
                            const uint8_t *outcome, size_t outcome_length,
                            const uint8_t *outcome_name, size_t outcome_name_length, bool has_outcome,
                            bool by_count,
                            const uint8_t *language, size_t language_length,
                            pbaudit_facts *facts, uint8_t *out, size_t room, size_t *needed);

/* How many files of a folder are answered how: how many elections there are, refused ones among them, how many certificates
 * have a yes and how many a no, and how many files are refused. */
typedef struct {
    size_t elections, yes, no, refused;
} pbaudit_total;

/* What `pbaudit folder` prints on the files of one name, which is given without `.pb`: in a line their JSON object, and behind
 * it their lines, as in
 *   {"election":{..},"kind":"entry","name":"town","prices":{..},"version":1,"violation":null}
 *   town.pb: read 3 voters 3 projects 2 funded
 *   town.prices.csv: supported priceable
 * election_state and its like say of a file PBAUDIT_FILE_MISSING, PBAUDIT_FILE_THERE or, where it couldn't be read,
 * PBAUDIT_FILE_UNREAD. The total of these files goes to *total; those of all names add up to that of the folder. 0 where no
 * file is refused and each certificate is answered yes, 1 where one is answered no and none is refused, and 2 where a file
 * is refused. 3 where there is no such entry, and *total is all 0, as it is out of memory: where the election is missing, a
 * state is none of these three, or the name is empty, isn't UTF-8 or has a control character. 0, 1, 2, 3 or 4. */
enum {
    PBAUDIT_FILE_MISSING = 0, PBAUDIT_FILE_THERE, PBAUDIT_FILE_UNREAD
};
uint8_t pbaudit_folder_entry(const uint8_t *name, size_t name_length,
                             uint8_t election_state, const uint8_t *election, size_t election_length,
                             uint8_t prices_state, const uint8_t *prices, size_t prices_length,
                             uint8_t violation_state, const uint8_t *violation, size_t violation_length,
                             bool stable, bool exhaustive, bool cover,
                             pbaudit_total *total, uint8_t *out, size_t room, size_t *needed);

/* What `pbaudit folder` prints of the total: in a line its JSON object, and behind it the line
 * `total 2 elections 1 yes 0 no 1 refused`. 2 where a file is refused, 1 where none is and a certificate is answered no, and
 * otherwise 0. 0, 1, 2 or 4. */
uint8_t pbaudit_folder_total(const pbaudit_total *total, uint8_t *out, size_t room, size_t *needed);

/* What a yes to a price certificate leaves open: the line `note: the voter budgets together are less than the limit, so
 * this yes says little`, or an empty text where they are not. The note holds of the files, whatever the answer is; where
 * one of them is refused, the text is empty. 0 or 4. */
uint8_t pbaudit_note(const uint8_t *election, size_t election_length,
                     const uint8_t *certificate, size_t certificate_length,
                     uint8_t *out, size_t room, size_t *needed);

/* What a yes to a price certificate says of every group of voters who all approve an unfunded project, by whether
 * exhaustive was asked: PBAUDIT_STRICT, their equal part of the limit is less than what that project costs and the funded
 * projects that at least one of them approves, together; PBAUDIT_WEAK, it is no more than that; PBAUDIT_LITTLE, nothing.
 * It holds of the files, whatever the answer is; where one of them is refused, it is 0. 0, 1, 2, 3, or 4 where memory ran
 * out. */
enum {
    PBAUDIT_LITTLE = 1, PBAUDIT_WEAK, PBAUDIT_STRICT
};
uint8_t pbaudit_groups(const uint8_t *election, size_t election_length,
                       const uint8_t *certificate, size_t certificate_length, bool exhaustive);

/* What a file is, by its first record that isn't blank: *kind is one of these numbers, or 0 where that record begins no
 * such file, isn't UTF-8 or is missing. What follows it isn't looked at: the front of a file is enough, which may be of
 * any length, and the file may still be refused. What is said above of *needed holds of *kind. 0, or 4, and then *kind
 * is 0. */
enum {
    PBAUDIT_KIND_ELECTION = 1, PBAUDIT_KIND_OUTCOME, PBAUDIT_KIND_PRICES, PBAUDIT_KIND_VIOLATION, PBAUDIT_KIND_REFUTATION
};
uint8_t pbaudit_kind(const uint8_t *file, size_t file_length, uint8_t *kind);

/* Why a file is refused, for a person: as an example, for the refusal `refused certificate 24 UnknownVoter record 5`
 *   there is no voter '7010'; the election has 3 voters
 *   voters are numbered by their rows in VOTES, from 1, and not by voter_id; ..
 * with 5 in *line. input is what the file has to be: 0 an election, 1 an outcome file, 2 a price certificate, 3 a
 * violation certificate, 4 a certificate of any kind, 5 a refutation. number and record are the fault and the record of
 * the refusal, by its facts or its line. election is the one beside which the file was read, or an empty file with
 * has_election false. *line is the line of the file on which the refused record begins, from 1, or 0 where there is
 * none, as at the end of the file. The text has a sentence a line; each after the first that is about a line of the file
 * begins with `line N: `. It is empty where no refusal has this number, or input is none of these. The words are for people and may
 * change. What is said above of files, out and *needed holds here too, and for *line what is said of *needed; after out
 * of memory, *line may be anything. 0 or 4. */
uint8_t pbaudit_hint(uint8_t input, uint32_t number, uint64_t record,
                     const uint8_t *file, size_t file_length,
                     const uint8_t *election, size_t election_length, bool has_election,
                     uint64_t *line, uint8_t *out, size_t room, size_t *needed);

/* The same question by question, without facts. */

/* What an election has: the line of `pbaudit read`, with its notes. 0, 2 or 4. */
static inline uint8_t pbaudit_read(const uint8_t *election, size_t election_length,
                                   uint8_t *out, size_t room, size_t *needed) {
    pbaudit_facts facts;
    return pbaudit_answer(PBAUDIT_READ, election, election_length, election, 0, false, election, 0, election, 0,
                          false, false, false, &facts, out, room, needed);
}

/* Whether the payments of a price certificate support the outcome. 0, 1, 2 or 4. */
static inline uint8_t pbaudit_prices(const uint8_t *election, size_t election_length,
                                     const uint8_t *outcome, size_t outcome_length, bool has_outcome,
                                     const uint8_t *certificate, size_t certificate_length,
                                     bool stable, bool exhaustive, bool cover,
                                     uint8_t *out, size_t room, size_t *needed) {
    pbaudit_facts facts;
    return pbaudit_answer(PBAUDIT_PRICES, election, election_length, outcome, outcome_length, has_outcome, certificate,
                          certificate_length, election, 0, stable, exhaustive, cover, &facts, out, room, needed);
}

/* Whether a group and its demand are a violation of EJR, by the measure that the certificate states. 0, 1, 2 or 4. */
static inline uint8_t pbaudit_violation(const uint8_t *election, size_t election_length,
                                        const uint8_t *outcome, size_t outcome_length, bool has_outcome,
                                        const uint8_t *certificate, size_t certificate_length,
                                        uint8_t *out, size_t room, size_t *needed) {
    pbaudit_facts facts;
    return pbaudit_answer(PBAUDIT_VIOLATION, election, election_length, outcome, outcome_length, has_outcome, certificate,
                          certificate_length, election, 0, false, false, false, &facts, out, room, needed);
}

/* Whether weights prove that no prices whatever support the outcome, or, where Cover has a weight, that none support it
 * under Cover. 0, 1, 2 or 4. */
static inline uint8_t pbaudit_refutation(const uint8_t *election, size_t election_length,
                                         const uint8_t *outcome, size_t outcome_length, bool has_outcome,
                                         const uint8_t *certificate, size_t certificate_length,
                                         uint8_t *out, size_t room, size_t *needed) {
    pbaudit_facts facts;
    return pbaudit_answer(PBAUDIT_REFUTATION, election, election_length, outcome, outcome_length, has_outcome, certificate,
                          certificate_length, election, 0, false, false, false, &facts, out, room, needed);
}

/* The same, but weights that refute no prices whatever may still refute stable ones, those of pbaudit_prices with stable:
 * then the text is `unpriceable stable`, or `unpriceable stable cover`. 0, 1, 2 or 4. */
static inline uint8_t pbaudit_stable_refutation(const uint8_t *election, size_t election_length,
                                                const uint8_t *outcome, size_t outcome_length, bool has_outcome,
                                                const uint8_t *certificate, size_t certificate_length,
                                                uint8_t *out, size_t room, size_t *needed) {
    pbaudit_facts facts;
    return pbaudit_answer(PBAUDIT_REFUTATION, election, election_length, outcome, outcome_length, has_outcome, certificate,
                          certificate_length, election, 0, true, false, false, &facts, out, room, needed);
}

/* Whether no group of voters falls short, by cost: whether of any voters who all approve an unfunded project there is one
 * for whom that project and the funded projects on the ballot cost more than the group's share of the limit. Else the text
 * has the first project for which a group falls short, and how many voters the largest such group has. 0, 1, 2 or 4. */
static inline uint8_t pbaudit_groups_by_cost(const uint8_t *election, size_t election_length,
                                             const uint8_t *outcome, size_t outcome_length, bool has_outcome,
                                             uint8_t *out, size_t room, size_t *needed) {
    pbaudit_facts facts;
    return pbaudit_answer(PBAUDIT_GROUPS_BY_COST, election, election_length, outcome, outcome_length, has_outcome, election,
                          0, election, 0, false, false, false, &facts, out, room, needed);
}

/* The same by counting: what is compared with the share is the cost of the unfunded project, once, and once more for each
 * funded project on the ballot. 0, 1, 2 or 4. */
static inline uint8_t pbaudit_groups_by_count(const uint8_t *election, size_t election_length,
                                              const uint8_t *outcome, size_t outcome_length, bool has_outcome,
                                              uint8_t *out, size_t room, size_t *needed) {
    pbaudit_facts facts;
    return pbaudit_answer(PBAUDIT_GROUPS_BY_COUNT, election, election_length, outcome, outcome_length, has_outcome, election,
                          0, election, 0, false, false, false, &facts, out, room, needed);
}

/* Whether no group falls short, by counting if by_count and otherwise by cost; behind an empty line the figures of one
 * group: after a no the largest that falls short for the project that is named, and after a yes the one whose share of the
 * limit covers most of what it needs: the text of `pbaudit explain --groups`. 0, 1, 2 or 4. */
static inline uint8_t pbaudit_explain_groups(const uint8_t *election, size_t election_length,
                                             const uint8_t *outcome, size_t outcome_length, bool has_outcome,
                                             bool by_count, uint8_t *out, size_t room, size_t *needed) {
    pbaudit_facts facts;
    return pbaudit_answer(by_count ? PBAUDIT_EXPLAIN_GROUPS_BY_COUNT : PBAUDIT_EXPLAIN_GROUPS_BY_COST, election,
                          election_length, outcome, outcome_length, has_outcome, election, 0, election, 0, false, false,
                          false, &facts, out, room, needed);
}

/* The figures of one group for each unfunded project with a supporter, whether or not it falls short: the table of
 * `pbaudit margins --groups`, as comma-separated values. 0, 2 or 4. */
static inline uint8_t pbaudit_group_margins(const uint8_t *election, size_t election_length,
                                            const uint8_t *outcome, size_t outcome_length, bool has_outcome,
                                            bool by_count, uint8_t *out, size_t room, size_t *needed) {
    pbaudit_facts facts;
    return pbaudit_answer(by_count ? PBAUDIT_GROUP_MARGINS_BY_COUNT : PBAUDIT_GROUP_MARGINS_BY_COST, election,
                          election_length, outcome, outcome_length, has_outcome, election, 0, election, 0, false, false,
                          false, &facts, out, room, needed);
}

/* Prices, and a group with its demand, for one outcome: a line for each, that of the prices first. 0 where both are a yes,
 * else 1; or 2 or 4. */
static inline uint8_t pbaudit_both(const uint8_t *election, size_t election_length,
                                   const uint8_t *outcome, size_t outcome_length, bool has_outcome,
                                   const uint8_t *prices, size_t prices_length,
                                   const uint8_t *violation, size_t violation_length,
                                   bool stable, bool exhaustive, bool cover,
                                   uint8_t *out, size_t room, size_t *needed) {
    pbaudit_facts facts;
    return pbaudit_answer(PBAUDIT_BOTH, election, election_length, outcome, outcome_length, has_outcome, prices,
                          prices_length, violation, violation_length, stable, exhaustive, cover, &facts, out, room, needed);
}

/* The verdict on a certificate of any kind, an empty line, and what each condition on prices, or each test of a
 * violation or of a refutation, comes to: the table of `pbaudit explain`. A certificate that begins as a violation
 * certificate or as a refutation is taken as one; of a violation the switches don't matter, and of a refutation stable
 * alone does; any other is taken as prices. 0, 1, 2 or 4. */
static inline uint8_t pbaudit_explain(const uint8_t *election, size_t election_length,
                                      const uint8_t *outcome, size_t outcome_length, bool has_outcome,
                                      const uint8_t *certificate, size_t certificate_length,
                                      bool stable, bool exhaustive, bool cover,
                                      uint8_t *out, size_t room, size_t *needed) {
    pbaudit_facts facts;
    return pbaudit_answer(PBAUDIT_EXPLAIN, election, election_length, outcome, outcome_length, has_outcome, certificate,
                          certificate_length, election, 0, stable, exhaustive, cover, &facts, out, room, needed);
}

/* What each project costs, is paid and could be offered by a price certificate: the table of `pbaudit margins`, as
 * comma-separated values. 0, 2 or 4. */
static inline uint8_t pbaudit_margins(const uint8_t *election, size_t election_length,
                                      const uint8_t *outcome, size_t outcome_length, bool has_outcome,
                                      const uint8_t *certificate, size_t certificate_length,
                                      uint8_t *out, size_t room, size_t *needed) {
    pbaudit_facts facts;
    return pbaudit_answer(PBAUDIT_MARGINS, election, election_length, outcome, outcome_length, has_outcome, certificate,
                          certificate_length, election, 0, false, false, false, &facts, out, room, needed);
}

/* A price certificate in its canonical form. 0, 2 or 4. */
static inline uint8_t pbaudit_tidy(const uint8_t *election, size_t election_length,
                                   const uint8_t *certificate, size_t certificate_length,
                                   uint8_t *out, size_t room, size_t *needed) {
    pbaudit_facts facts;
    return pbaudit_answer(PBAUDIT_TIDY, election, election_length, election, 0, false, certificate, certificate_length,
                          election, 0, false, false, false, &facts, out, room, needed);
}

/* The page. 0, 1, 2, 3 or 4. */
static inline uint8_t pbaudit_page(const uint8_t *election, size_t election_length,
                                   const uint8_t *election_name, size_t election_name_length,
                                   const uint8_t *outcome, size_t outcome_length,
                                   const uint8_t *outcome_name, size_t outcome_name_length, bool has_outcome,
                                   const uint8_t *certificate, size_t certificate_length,
                                   const uint8_t *certificate_name, size_t certificate_name_length,
                                   bool stable, bool exhaustive, bool cover,
                                   const uint8_t *language, size_t language_length,
                                   uint8_t *out, size_t room, size_t *needed) {
    pbaudit_facts facts;
    return pbaudit_answer_page(election, election_length, election_name, election_name_length, outcome, outcome_length,
                               outcome_name, outcome_name_length, has_outcome, certificate, certificate_length,
                               certificate_name, certificate_name_length, stable, exhaustive, cover, language,
                               language_length, &facts, out, room, needed);
}

#ifdef __cplusplus
}
#endif
#endif
