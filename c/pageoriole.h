/* Pageoriole for callers in C.
 *
 * `c/library` proves the library and writes target/staticlib/libpageoriole.a for x86-64 Linux. Of the C library it needs
 * memcpy and memset. It has no state and no heap: calls from several threads don't meet, as long as each lends places of its own.
 * docs/FORMAT.md says what files, rules, scripts and verdicts are; every number that a caller needs has a name below.
 *
 * What each function promises is stated, and proved, in crates/pageoriole/src/: files.rt, lists.rt, texts.rt, listings.rt. The proofs end at
 * this header: c/header_check compares it with the sources, name by name and number by number, and c/check.c calls every function. A caller has
 * to see to this:
 *
 *   - A slice is two arguments, a pointer and a number of elements; that many elements can be read there. A slice of 0 elements may have
 *     any pointer, NULL too.
 *   - `place` and `answer` can be written, and overlap neither each other nor another slice of the call. `answer` is aligned to 8 bytes.
 *   - A bool is true or false.
 *
 * No other value is wrong to pass: whatever the bytes are, each function returns, and touches nothing outside what was lent.
 *
 * Answers. Each function returns a number: PAGEORIOLE_DONE, a refusal, a fault or a verdict; pageoriole_says gives its sentence. The values
 * that belong to it are stored in the first words of `answer`, as many as have room; all other words keep what they held. A room of
 * PAGEORIOLE_ANSWER words is always enough. A refusal (1 to 13, 50, 55 to 58) has one value, its position: a byte of the file, 0 where field
 * values were lent, a line's number, or 0, where text or a listing was, or, of 13, the bytes needed.
 *
 * Places. What is written fills the first bytes of `place`; the others keep theirs. When a call is turned away or breaks off, all do.
 *
 * Fields and values. A planner writes a script field: a head of PAGEORIOLE_HEAD bytes, then the value; so does pageoriole_text_script. Judge,
 * replay, check, writer and pageoriole_script_text take the value without the head. pageoriole_take_script makes the step between.
 *
 * Stack. A call touches at most PAGEORIOLE_STACK bytes, and those that write a text of a plan of type 2 (pageoriole_plan_text,
 * pageoriole_plan_two_text) at most PAGEORIOLE_STACK_TEXT. This is measured and not proved: c/stack.c runs every function on the largest inputs
 * and fails above these. It finds 40,392 bytes (pageoriole_replay_file), 44,984 for pageoriole_plan_text and 44,632 for pageoriole_plan_two_text.
 * Before the library was built by today's compiler it was 30,248, 35,592 and 35,336, and the limits 32,768 and 36,864.
 */
#ifndef PAGEORIOLE_H
#define PAGEORIOLE_H

#include <stdbool.h>
#include <stddef.h>
#include <stdint.h>

#ifdef __cplusplus
extern "C" {
#endif

/* The version of this header and of the library that it belongs to. */
#define PAGEORIOLE_VERSION "2.2.0"

/* ---- Numbers that are returned ---- */

/* One row a number: its name, the number, how many values belong to it, its sentence.
 * A call is turned away; the value is the position, of 13 the bytes needed, of 55 to 58 the line, counted from 1, of 57 also 0. */
#define PAGEORIOLE_REFUSALS(ROW)                                                                                                               \
    ROW(PAGEORIOLE_CUT, 1, 1, "the file is cut off inside a field")                                                                            \
    ROW(PAGEORIOLE_TAG, 2, 1, "a field stands where it can't stand")                                                                           \
    ROW(PAGEORIOLE_NO_TARGET, 3, 1, "the file ends before its target policy")                                                                  \
    ROW(PAGEORIOLE_LENGTH, 4, 1, "a length is wrong")                                                                                          \
    ROW(PAGEORIOLE_BOUNDS, 5, 1, "a rule's action isn't 0 or 1, or a low is above its high")                                                   \
    ROW(PAGEORIOLE_EQUAL, 6, 1, "a rule equals an earlier one")                                                                                \
    ROW(PAGEORIOLE_TOO_MANY, 7, 1, "there are more than 1,024 rules")                                                                          \
    ROW(PAGEORIOLE_OUTSIDE, 8, 1, "a policy names a rule that isn't in the catalogue")                                                         \
    ROW(PAGEORIOLE_TWICE, 9, 1, "a policy names a rule twice")                                                                                 \
    ROW(PAGEORIOLE_KEEP, 10, 1, "the keep list doesn't occur in order in both policies")                                                       \
    ROW(PAGEORIOLE_CODING, 11, 1, "a script's type, a code or an unused number is wrong")                                                      \
    ROW(PAGEORIOLE_NO_SCRIPT, 12, 1, "there is no script in the file")                                                                         \
    ROW(PAGEORIOLE_ROOM, 13, 1, "the lent place is too small")                                                                                 \
    ROW(PAGEORIOLE_DEFAULT, 50, 1, "the default isn't 1, which means permit")                                                                  \
    ROW(PAGEORIOLE_NO_COMMAND, 55, 1, "a line isn't a command of the script's type and the maker")                                             \
    ROW(PAGEORIOLE_BEYOND, 56, 1, "a number is above 65,535, or, behind `before`, above 65,536")                                               \
    ROW(PAGEORIOLE_NOT_READ, 57, 1, "a line of the listing isn't read, or, at 0, there isn't just one `:FORWARD` line")                        \
    ROW(PAGEORIOLE_LOW_ABOVE, 58, 1, "a line of the listing has a low above its high")

/* A command fails; the value is its step, counted from 1. */
#define PAGEORIOLE_FAULTS(ROW)                                                                                                                 \
    ROW(PAGEORIOLE_PRESENT, 20, 1, "a command adds a rule that is there already")                                                              \
    ROW(PAGEORIOLE_ABSENT, 21, 1, "a command takes out a rule that isn't there")                                                               \
    ROW(PAGEORIOLE_PLACE, 22, 1, "a command names a place that the list doesn't have")                                                         \
    ROW(PAGEORIOLE_NUMBER, 23, 1, "a command names a rule that isn't in the catalogue")

/* Verdicts on a script that runs through; the value of 24 is its number of commands, those of 30 are step and place. What 31 says under each
 * default stands at "Field values". */
#define PAGEORIOLE_VERDICTS(ROW)                                                                                                               \
    ROW(PAGEORIOLE_ELSEWHERE, 24, 1, "all commands pass, but the last list isn't the target")                                                  \
    ROW(PAGEORIOLE_UNORDERED, 30, 2, "a list on the way isn't ordered, so safety isn't shown")                                                 \
    ROW(PAGEORIOLE_NOT_FULL, 31, 0,                                                                                                            \
        "a flow to which both policies give the default's action never gets the other; any other flow may get the default for a while")        \
    ROW(PAGEORIOLE_SAFE, 32, 0, "safe: at every step each flow is decided as one of the two policies decides it")

/* All of them. DONE has the values that its function names. */
#define PAGEORIOLE_NUMBERS(ROW)                                                                                                                \
    ROW(PAGEORIOLE_DONE, 0, 0, "done")                                                                                                         \
    PAGEORIOLE_REFUSALS(ROW)                                                                                                                   \
    PAGEORIOLE_FAULTS(ROW)                                                                                                                     \
    PAGEORIOLE_VERDICTS(ROW)

#define PAGEORIOLE_NAMED(name, number, values, sentence) name = number,
#define PAGEORIOLE_SAID(name, number, values, sentence)                                                                                        \
    case name: return sentence;
#define PAGEORIOLE_VALUED(name, number, values, sentence)                                                                                      \
    case name: return values;
#define PAGEORIOLE_AMONG(name, number, values, sentence)                                                                                       \
    case name: return true;

enum pageoriole_number { PAGEORIOLE_NUMBERS(PAGEORIOLE_NAMED) };

/* The sentence of a number. */
static inline const char *pageoriole_says(uint32_t number) {
    switch (number) {
        PAGEORIOLE_NUMBERS(PAGEORIOLE_SAID)
    default: return "no number of this library";
    }
}

/* How many values belong to a number other than DONE. */
static inline size_t pageoriole_values_of(uint32_t number) {
    switch (number) {
        PAGEORIOLE_NUMBERS(PAGEORIOLE_VALUED)
    default: return 0;
    }
}

/* Whether a call was turned away: whether the number is a refusal. */
static inline bool pageoriole_turned_away(uint32_t number) {
    switch (number) {
        PAGEORIOLE_REFUSALS(PAGEORIOLE_AMONG)
    default: return false;
    }
}

#undef PAGEORIOLE_NAMED
#undef PAGEORIOLE_SAID
#undef PAGEORIOLE_VALUED
#undef PAGEORIOLE_AMONG

/* ---- Words of `answer` ---- */

/* The values of pageoriole_read. Starts and sizes are bytes of the file. */
enum pageoriole_read_word {
    PAGEORIOLE_READ_RULES,         /* how many rules */
    PAGEORIOLE_READ_INITIAL_START,
    PAGEORIOLE_READ_INITIAL_SIZE,
    PAGEORIOLE_READ_TARGET_START,
    PAGEORIOLE_READ_TARGET_SIZE,
    PAGEORIOLE_READ_HAS_DEFAULT,   /* 1 if there is a default, so permit, or 0 */
    PAGEORIOLE_READ_DEFAULT_START,
    PAGEORIOLE_READ_DEFAULT_SIZE,
    PAGEORIOLE_READ_HAS_KEEP,      /* 1 if there is a keep list, or 0 */
    PAGEORIOLE_READ_KEEP_START,
    PAGEORIOLE_READ_KEEP_SIZE,
    PAGEORIOLE_READ_HAS_SCRIPT,    /* 1 if there is a script, or 0 */
    PAGEORIOLE_READ_SCRIPT_START,
    PAGEORIOLE_READ_SCRIPT_SIZE
};

/* The values of a planner. */
enum pageoriole_planned_word {
    PAGEORIOLE_PLANNED_KEPT,     /* how many rules are kept */
    PAGEORIOLE_PLANNED_COMMANDS, /* how many commands are planned */
    PAGEORIOLE_PLANNED_BYTES     /* how many bytes of the place the script field takes */
};

/* The values of the other functions. */
enum pageoriole_word {
    PAGEORIOLE_WRITTEN_BYTES = 0,  /* DONE of what writes a file, a list, decisions, a text or the script of a text: how many bytes */
    PAGEORIOLE_DECIDED_ACTION = 0, /* DONE of what decides one flow: its action */
    PAGEORIOLE_DECIDED_PLACE = 1,  /* and the place of the rule that decides, 0 for the default */
    PAGEORIOLE_REFUSED_AT = 0,     /* 1 to 13, 50, 55 to 58: the position, the bytes needed, or the line */
    PAGEORIOLE_FAULT_STEP = 0,     /* 20 to 23, and 30: the step */
    PAGEORIOLE_FAULT_PLACE = 1     /* 30: the place */
};

/* ---- Limits ---- */

enum pageoriole_limit {
    PAGEORIOLE_ANSWER = 14,      /* words: the most values that belong to a number */
    PAGEORIOLE_RULES = 1024,     /* rules in a catalogue */
    PAGEORIOLE_LISTED = 512,     /* rules in a policy */
    PAGEORIOLE_COMMANDS = 2048,  /* commands in a script */
    PAGEORIOLE_FILE = 44049,     /* bytes: the longest file that is accepted, so the longest that is written */
    PAGEORIOLE_PLAN = 5124,      /* bytes: the longest script field that a planner writes */
    PAGEORIOLE_LIST = 2048,      /* bytes: the longest list that a replay writes */
    PAGEORIOLE_TEXT = 65536,     /* bytes: no text of pageoriole_plan_text or pageoriole_judge_text is longer */
    PAGEORIOLE_SHOW_TEXT = 262144, /* bytes: no text of pageoriole_show_text is longer */
    PAGEORIOLE_TEXT_A = 32768,   /* bytes: no console text of maker A is longer */
    PAGEORIOLE_TEXT_B = 49152,   /* bytes: no console text of maker B is longer */
    PAGEORIOLE_SCRIPT_FIELD = 10244, /* bytes: the longest script field, so the longest that pageoriole_text_script writes */
    PAGEORIOLE_FROM_IPTABLES = 17418, /* bytes: the longest file that pageoriole_from_iptables writes */
    PAGEORIOLE_STACK = 49152,    /* bytes of stack, for every function but two */
    PAGEORIOLE_STACK_TEXT = 49152 /* bytes of stack, for pageoriole_plan_text and pageoriole_plan_two_text */
};

/* ---- Bytes: docs/FORMAT.md, "The deployment file" ---- */

/* A field: tag, two bytes of length, value. In a file the tags stand in the order 1, 2, 3, 6, 4, 5. */
enum pageoriole_tag {
    PAGEORIOLE_RULE_TAG = 1,
    PAGEORIOLE_INITIAL_TAG = 2,
    PAGEORIOLE_TARGET_TAG = 3,
    PAGEORIOLE_KEEP_TAG = 4,
    PAGEORIOLE_SCRIPT_TAG = 5,
    PAGEORIOLE_DEFAULT_TAG = 6
};

/* Of a rule, of a decision, and PAGEORIOLE_PERMIT of a default: deny is an absent one. */
enum pageoriole_action { PAGEORIOLE_DENY = 0, PAGEORIOLE_PERMIT = 1 };

/* The first byte of a script. */
enum pageoriole_type { PAGEORIOLE_APPEND_DELETE = 1, PAGEORIOLE_INSERT_DELETE_MOVE = 2 };

/* The first byte of a command; its two numbers follow, 0 where there is none. */
enum pageoriole_code {
    PAGEORIOLE_APP = 1,       /* app r: rule, 0 */
    PAGEORIOLE_DEL_RULE = 2,  /* del r: rule, 0 */
    PAGEORIOLE_INS = 3,       /* ins i r: place, rule */
    PAGEORIOLE_DEL_PLACE = 4, /* del i: place, 0 */
    PAGEORIOLE_MOV = 5        /* mov i j: place, place */
};

/* Whose console a text is for, handed over for `maker_b`. */
enum pageoriole_maker { PAGEORIOLE_MAKER_A = 0, PAGEORIOLE_MAKER_B = 1 };

/* Widths in bytes. */
enum pageoriole_width {
    PAGEORIOLE_ACTION_WIDTH = 1, /* of a rule, of a decision and of a default */
    PAGEORIOLE_PROTOCOL_WIDTH = 1,
    PAGEORIOLE_ADDRESS_WIDTH = 4,
    PAGEORIOLE_PORT_WIDTH = 2,
    PAGEORIOLE_LISTED_WIDTH = 2, /* a rule number in a list, and each of the two numbers of a command */
    PAGEORIOLE_PLACE_WIDTH = 2,  /* a place in a decision */
    PAGEORIOLE_HEAD = 3,         /* a field's head */
    PAGEORIOLE_TYPE = 1,         /* a script's type, before its first command */
    PAGEORIOLE_COMMAND = 5,
    PAGEORIOLE_RULE = 27,
    PAGEORIOLE_FLOW = 13,
    PAGEORIOLE_DECISION = 3
};

/* Where the numbers of a rule begin. */
enum pageoriole_rule_byte {
    PAGEORIOLE_RULE_ACTION = 0,
    PAGEORIOLE_RULE_PROTOCOL_LOW = 1,
    PAGEORIOLE_RULE_PROTOCOL_HIGH = 2,
    PAGEORIOLE_RULE_SOURCE_LOW = 3,
    PAGEORIOLE_RULE_SOURCE_HIGH = 7,
    PAGEORIOLE_RULE_SOURCE_PORT_LOW = 11,
    PAGEORIOLE_RULE_SOURCE_PORT_HIGH = 13,
    PAGEORIOLE_RULE_DESTINATION_LOW = 15,
    PAGEORIOLE_RULE_DESTINATION_HIGH = 19,
    PAGEORIOLE_RULE_DESTINATION_PORT_LOW = 23,
    PAGEORIOLE_RULE_DESTINATION_PORT_HIGH = 25
};

/* Where the numbers of a command begin. */
enum pageoriole_command_byte { PAGEORIOLE_COMMAND_CODE = 0, PAGEORIOLE_COMMAND_ONE = 1, PAGEORIOLE_COMMAND_TWO = 3 };

/* Where the numbers of a flow record begin, and those of the decision that answers it. */
enum pageoriole_flow_byte {
    PAGEORIOLE_FLOW_PROTOCOL = 0,
    PAGEORIOLE_FLOW_SOURCE = 1,
    PAGEORIOLE_FLOW_SOURCE_PORT = 5,
    PAGEORIOLE_FLOW_DESTINATION = 7,
    PAGEORIOLE_FLOW_DESTINATION_PORT = 11
};

enum pageoriole_decision_byte { PAGEORIOLE_DECISION_ACTION = 0, PAGEORIOLE_DECISION_PLACE = 1 };

/* The number in `width` bytes. All numbers are big-endian. */
static inline uint32_t pageoriole_get(const uint8_t *bytes, size_t width) {
    uint32_t number = 0;
    for (size_t k = 0; k < width; k++) number = number << 8 | bytes[k];
    return number;
}

/* Stores a number in `width` bytes. */
static inline void pageoriole_put(uint8_t *bytes, size_t width, uint32_t number) {
    for (size_t k = width; k > 0; k--, number >>= 8) bytes[k - 1] = (uint8_t)(number & 255u);
}

/* ---- Field values ---- */

/* The values of the fields of a deployment file.
 *   rules        27 bytes a rule, one behind the other, without the fields' heads
 *   initial, target, keep   two-byte rule numbers, big-endian
 *   default_value   one byte, PAGEORIOLE_PERMIT
 *   script       a type byte, then five bytes a command
 * The default is what a flow gets that no rule of a policy matches. Both policies have the same, and no command changes it: permit if it is there,
 * deny if it is absent (`has_default` false). Only decisions depend on it. Plans and verdicts are the same under either; what verdict 31 promises
 * isn't: under default deny, no flow that both policies deny is ever permitted, but one that both permit may be denied for a while; under default
 * permit, no flow that both policies permit is ever denied, but one that both deny may be permitted for a while.
 * A keep list that is there and empty keeps nothing; an absent one (`has_keep` false) asks for the planner's own choice. What is lent for an
 * absent default, keep list or script isn't looked at. Tests go in this order: 4, 7, 5, 6 for the rules; 4, 8, 9 for the initial policy and for
 * the target; 4, 50 for the default; 4, 10 for the keep list; 4, 11 for the script; all at position 0; and last 13.
 *
 * The functions whose names end in _values, at the end of this header, take them as one struct. Set one to all zero and fill in what there is. */
struct pageoriole_values {
    const uint8_t *rules;
    size_t rules_size;
    const uint8_t *initial;
    size_t initial_size;
    const uint8_t *target;
    size_t target_size;
    bool has_default;
    const uint8_t *default_value;
    size_t default_size;
    bool has_keep;
    const uint8_t *keep;
    size_t keep_size;
    bool has_script;
    const uint8_t *script;
    size_t script_size;
};

/* ---- Reading and writing ---- */

/* Reads a deployment file. DONE: 14 values, see enum pageoriole_read_word. The rules stand from the file's first byte on, each with its
 * field's head. Refusals: 1 to 11, 50. */
uint32_t pageoriole_read(const uint8_t *file, size_t file_size, uint64_t *answer, size_t answer_words);

/* The same, and a file without a script is turned away: 12, at the file's length. */
uint32_t pageoriole_read_to_judge(const uint8_t *file, size_t file_size, uint64_t *answer, size_t answer_words);

/* Whether field values pass. DONE: no value. Refusals: 4 to 11, 50. */
uint32_t pageoriole_check(const uint8_t *rules, size_t rules_size, const uint8_t *initial, size_t initial_size, const uint8_t *target,
                          size_t target_size, bool has_default, const uint8_t *default_value, size_t default_size, bool has_keep,
                          const uint8_t *keep, size_t keep_size, bool has_script, const uint8_t *script, size_t script_size, uint64_t *answer,
                          size_t answer_words);

/* Writes the deployment file of field values into `place`. DONE: the bytes written. Refusals: 4 to 11, 50; 13 last. */
uint32_t pageoriole_write(const uint8_t *rules, size_t rules_size, const uint8_t *initial, size_t initial_size, const uint8_t *target,
                          size_t target_size, bool has_default, const uint8_t *default_value, size_t default_size, bool has_keep,
                          const uint8_t *keep, size_t keep_size, bool has_script, const uint8_t *script, size_t script_size, uint8_t *place,
                          size_t place_size, uint64_t *answer, size_t answer_words);

/* ---- Deciding flows ---- */

/* Decides a flow by a policy of the file: the target if `of_target`, or else the initial one. DONE: the action, and the place of the first
 * rule that matches, counted from 1; the default and 0 if none does. Refusals: 1 to 11, 50. */
uint32_t pageoriole_decide_file(const uint8_t *file, size_t file_size, bool of_target, uint8_t protocol, uint32_t source, uint16_t source_port,
                                uint32_t destination, uint16_t destination_port, uint64_t *answer, size_t answer_words);

/* The same by a policy over rules, as field values. Refusals: 4, 7, 5, 6 for the rules, 4, 8, 9 for the policy, 4, 50 for its default. */
uint32_t pageoriole_decide(const uint8_t *rules, size_t rules_size, const uint8_t *policy, size_t policy_size, bool has_default,
                           const uint8_t *default_value, size_t default_size, uint8_t protocol, uint32_t source, uint16_t source_port,
                           uint32_t destination, uint16_t destination_port, uint64_t *answer, size_t answer_words);

/* Decides many flows by a policy of the file, which is read once. `flows` are records of PAGEORIOLE_FLOW bytes (enum pageoriole_flow_byte); for
 * each, PAGEORIOLE_DECISION bytes are written into `place`, in the same order: the action, and two bytes of place. DONE: the bytes written.
 * Refusals: 1 to 11, 50; then 4 at 0 if the flows aren't whole records; 13 last. */
uint32_t pageoriole_decide_flows_file(const uint8_t *file, size_t file_size, bool of_target, const uint8_t *flows, size_t flows_size,
                                      uint8_t *place, size_t place_size, uint64_t *answer, size_t answer_words);

/* The same by a policy over rules, as field values, which are tested once. Refusals: those of pageoriole_decide; then 4 at 0 if the flows aren't
 * whole records; 13 last. */
uint32_t pageoriole_decide_flows(const uint8_t *rules, size_t rules_size, const uint8_t *policy, size_t policy_size, bool has_default,
                                 const uint8_t *default_value, size_t default_size, const uint8_t *flows, size_t flows_size, uint8_t *place,
                                 size_t place_size, uint64_t *answer, size_t answer_words);

/* ---- Replaying a script ---- */

/* Replays the script of the file from its initial policy and writes the last list, two bytes a rule, into `place`. DONE: the bytes written.
 * 20 to 23: the step of the command that fails. Refusals: 1 to 12, 50; 13 last. */
uint32_t pageoriole_replay_file(const uint8_t *file, size_t file_size, uint8_t *place, size_t place_size, uint64_t *answer, size_t answer_words);

/* The same from field values. Refusals: 4, 7, 5, 6 for the rules, 4, 8, 9 for the policy, 4, 50 for its default, 4, 11 for the script, 13. */
uint32_t pageoriole_replay(const uint8_t *rules, size_t rules_size, const uint8_t *initial, size_t initial_size, bool has_default,
                           const uint8_t *default_value, size_t default_size, const uint8_t *script, size_t script_size, uint8_t *place,
                           size_t place_size, uint64_t *answer, size_t answer_words);

/* ---- Planning ---- */

/* Plans the script from the initial policy of the file to its target, by append and delete (type 1), and writes it into `place` as a script
 * field, head and value. DONE: rules kept, commands, bytes written (enum pageoriole_planned_word). A script in the file is checked and not used.
 * Refusals: 1 to 11, 50; 13 last. */
uint32_t pageoriole_plan_one_file(const uint8_t *file, size_t file_size, uint8_t *place, size_t place_size, uint64_t *answer, size_t answer_words);

/* The same by insert, delete and move (type 2), with the keep list of the file. */
uint32_t pageoriole_plan_two_file(const uint8_t *file, size_t file_size, uint8_t *place, size_t place_size, uint64_t *answer, size_t answer_words);

/* The same from field values, type 1. Refusals: 4 to 11, 50; 13 last. */
uint32_t pageoriole_plan_one(const uint8_t *rules, size_t rules_size, const uint8_t *initial, size_t initial_size, const uint8_t *target,
                             size_t target_size, bool has_default, const uint8_t *default_value, size_t default_size, bool has_keep,
                             const uint8_t *keep, size_t keep_size, bool has_script, const uint8_t *script, size_t script_size, uint8_t *place,
                             size_t place_size, uint64_t *answer, size_t answer_words);

/* The same from field values, type 2. */
uint32_t pageoriole_plan_two(const uint8_t *rules, size_t rules_size, const uint8_t *initial, size_t initial_size, const uint8_t *target,
                             size_t target_size, bool has_default, const uint8_t *default_value, size_t default_size, bool has_keep,
                             const uint8_t *keep, size_t keep_size, bool has_script, const uint8_t *script, size_t script_size, uint8_t *place,
                             size_t place_size, uint64_t *answer, size_t answer_words);

/* ---- Judging a script ---- */

/* Judges the script of the file, from its initial policy to its target. Never DONE: a verdict with its values, or 20 to 23 with the step.
 * Refusals: 1 to 12, 50. */
uint32_t pageoriole_judge_file(const uint8_t *file, size_t file_size, uint64_t *answer, size_t answer_words);

/* The same from field values. Refusals: 4 to 11, 50. */
uint32_t pageoriole_judge(const uint8_t *rules, size_t rules_size, const uint8_t *initial, size_t initial_size, const uint8_t *target,
                          size_t target_size, bool has_default, const uint8_t *default_value, size_t default_size, bool has_keep,
                          const uint8_t *keep, size_t keep_size, const uint8_t *script, size_t script_size, uint64_t *answer,
                          size_t answer_words);

/* ---- Texts ---- */

/* What `planlist` prints for the file, written into `place`: both plans, or the refusal's line. DONE: the bytes written, also where the text
 * is that of a refusal. Refusal: 13. */
uint32_t pageoriole_plan_text(const uint8_t *file, size_t file_size, uint8_t *place, size_t place_size, uint64_t *answer, size_t answer_words);

/* What `judgelist` prints for the file: the verdict's line, or the refusal's. */
uint32_t pageoriole_judge_text(const uint8_t *file, size_t file_size, uint8_t *place, size_t place_size, uint64_t *answer, size_t answer_words);

/* What `showlist` prints for the file: its rules, policies, default, keep list and script in words, or the refusal's line. */
uint32_t pageoriole_show_text(const uint8_t *file, size_t file_size, uint8_t *place, size_t place_size, uint64_t *answer, size_t answer_words);

/* ---- Console text: docs/FORMAT.md, "Console text" ---- */

/* Writes a script, given as a field value, into `place` as text for a maker's console: maker B's if `maker_b`, or else maker A's
 * (enum pageoriole_maker). One command a line, each line ended by a line feed, no byte behind the last; the empty script is the empty text. DONE:
 * the bytes written. Refusals: 4, 11, both at 0; 13 last. PAGEORIOLE_TEXT_A or PAGEORIOLE_TEXT_B bytes are always enough. */
uint32_t pageoriole_script_text(const uint8_t *script, size_t script_size, bool maker_b, uint8_t *place, size_t place_size, uint64_t *answer,
                                size_t answer_words);

/* The same for the script of the file. Refusals: 1 to 12, 50; 13 last. 12 is at the file's length. */
uint32_t pageoriole_script_text_file(const uint8_t *file, size_t file_size, bool maker_b, uint8_t *place, size_t place_size, uint64_t *answer,
                                     size_t answer_words);

/* The same for the plan of type 1, as pageoriole_plan_one_file plans it. A script in the file is checked and not used. Refusals: 1 to 11, 50; 13
 * last. */
uint32_t pageoriole_plan_one_text(const uint8_t *file, size_t file_size, bool maker_b, uint8_t *place, size_t place_size, uint64_t *answer,
                                  size_t answer_words);

/* The same for the plan of type 2, as pageoriole_plan_two_file plans it. */
uint32_t pageoriole_plan_two_text(const uint8_t *file, size_t file_size, bool maker_b, uint8_t *place, size_t place_size, uint64_t *answer,
                                  size_t answer_words);

/* Reads a maker's text as a script of type `kind` and writes that into `place` as a script field, head and value; pageoriole_take_script takes the
 * value out of it. DONE: the bytes written. Refusals: 11 at 0 for a `kind` that isn't 1 or 2; then line by line, each with the line's number
 * counted from 1: 55, 56, and 4 at a 2,049th command; 13 last. A line behind the one at fault isn't looked at. PAGEORIOLE_SCRIPT_FIELD bytes are
 * always enough. What pageoriole_script_text wrote comes back as the script that it was. Of maker B, `move i before i` and `move i before i + 1`
 * are both `mov i i`. */
uint32_t pageoriole_text_script(const uint8_t *text, size_t text_size, uint8_t kind, bool maker_b, uint8_t *place, size_t place_size,
                                uint64_t *answer, size_t answer_words);

/* ---- Saved iptables rules: docs/FORMAT.md, "Saved iptables rules" ---- */

/* Brings in a listing as `iptables-save` writes it, and writes its deployment file into `place`: the FORWARD rules of the `*filter` part are the
 * catalogue, and both policies have all of them in this order; the `:FORWARD` policy is the default. A rule that is listed again stands at its
 * first place only. There is no keep list and no script. DONE: the bytes written. Refusals: line by line, each with the line's number counted from
 * 1 in the whole listing, 57, then 58, and 57 at the line that is missing if the listing ends inside the part; then at 0, 57 unless just one
 * `:FORWARD` line stands in the part, 7 for more than 1,024 different rules, 4 for more than 512; 13 last. A line behind the one at fault isn't
 * looked at. PAGEORIOLE_FROM_IPTABLES bytes are always enough. */
uint32_t pageoriole_from_iptables(const uint8_t *listing, size_t listing_size, uint8_t *place, size_t place_size, uint64_t *answer,
                                  size_t answer_words);

/* ---- Field values as one struct ---- */

/* Makes the value of a script field, as a planner or pageoriole_text_script wrote it into `field`, the script of the values. The bytes stay where
 * they are, and must stay there as long as the values are used. */
static inline void pageoriole_take_script(struct pageoriole_values *values, const uint8_t *field, size_t field_size) {
    bool whole = PAGEORIOLE_HEAD <= field_size;
    values->has_script = true;
    values->script = whole ? field + PAGEORIOLE_HEAD : field;
    values->script_size = whole ? field_size - PAGEORIOLE_HEAD : 0;
}

/* pageoriole_check. */
static inline uint32_t pageoriole_check_values(const struct pageoriole_values *v, uint64_t *answer, size_t answer_words) {
    return pageoriole_check(v->rules, v->rules_size, v->initial, v->initial_size, v->target, v->target_size, v->has_default, v->default_value,
                            v->default_size, v->has_keep, v->keep, v->keep_size, v->has_script, v->script, v->script_size, answer, answer_words);
}

/* pageoriole_write. */
static inline uint32_t pageoriole_write_values(const struct pageoriole_values *v, uint8_t *place, size_t place_size, uint64_t *answer,
                                               size_t answer_words) {
    return pageoriole_write(v->rules, v->rules_size, v->initial, v->initial_size, v->target, v->target_size, v->has_default, v->default_value,
                            v->default_size, v->has_keep, v->keep, v->keep_size, v->has_script, v->script, v->script_size, place, place_size,
                            answer, answer_words);
}

/* pageoriole_plan_one. */
static inline uint32_t pageoriole_plan_one_values(const struct pageoriole_values *v, uint8_t *place, size_t place_size, uint64_t *answer,
                                                  size_t answer_words) {
    return pageoriole_plan_one(v->rules, v->rules_size, v->initial, v->initial_size, v->target, v->target_size, v->has_default,
                               v->default_value, v->default_size, v->has_keep, v->keep, v->keep_size, v->has_script, v->script, v->script_size,
                               place, place_size, answer, answer_words);
}

/* pageoriole_plan_two. */
static inline uint32_t pageoriole_plan_two_values(const struct pageoriole_values *v, uint8_t *place, size_t place_size, uint64_t *answer,
                                                  size_t answer_words) {
    return pageoriole_plan_two(v->rules, v->rules_size, v->initial, v->initial_size, v->target, v->target_size, v->has_default,
                               v->default_value, v->default_size, v->has_keep, v->keep, v->keep_size, v->has_script, v->script, v->script_size,
                               place, place_size, answer, answer_words);
}

/* pageoriole_judge. It needs a script: without one, what is judged is a script of no bytes, which gets 4. */
static inline uint32_t pageoriole_judge_values(const struct pageoriole_values *v, uint64_t *answer, size_t answer_words) {
    return pageoriole_judge(v->rules, v->rules_size, v->initial, v->initial_size, v->target, v->target_size, v->has_default, v->default_value,
                            v->default_size, v->has_keep, v->keep, v->keep_size, v->script, v->has_script ? v->script_size : 0, answer,
                            answer_words);
}

/* pageoriole_replay. The target and the keep list aren't looked at; a script is needed as by the judge. */
static inline uint32_t pageoriole_replay_values(const struct pageoriole_values *v, uint8_t *place, size_t place_size, uint64_t *answer,
                                                size_t answer_words) {
    return pageoriole_replay(v->rules, v->rules_size, v->initial, v->initial_size, v->has_default, v->default_value, v->default_size, v->script,
                             v->has_script ? v->script_size : 0, place, place_size, answer, answer_words);
}

#ifdef __cplusplus
}
#endif

#endif
