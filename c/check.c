/* Calls every function of the library on inputs whose answers stand in docs/FORMAT.md: its examples and the rows of its tables. The inputs are
 * made here by hand, with numbers of this file's own and not by the header's names, so that a wrong name shows; check_names holds the names to
 * them. Prints what differs and the number of checks. */
#include <stdio.h>
#include <string.h>

#include "pageoriole.h"

enum { WORDS = PAGEORIOLE_ANSWER + 1, ROOM = 64 * 1024, RULE_FIELD = 30 };

#define FILL_WORD 0xa5a5a5a5a5a5a5a5u
#define FILL_BYTE 0xa5
#define BYTES(...) ((const uint8_t[]){__VA_ARGS__}), sizeof((const uint8_t[]){__VA_ARGS__})
#define NOTHING NULL, (size_t)0
#define VALUES(...) ((const uint64_t[]){__VA_ARGS__}), sizeof((const uint64_t[]){__VA_ARGS__}) / sizeof(uint64_t)
#define ANSWER answer, (size_t)WORDS
#define PLACE place, sizeof place
#define FILE_MADE made, made_size

static uint64_t answer[WORDS];
static uint8_t place[ROOM];
static unsigned checks, wrong;

static void expect(const char *what, const char *part, uint64_t got, uint64_t wanted) {
    checks++;
    if (got != wanted) {
        wrong++;
        printf("%s: %s is %llu, not %llu\n", what, part, (unsigned long long)got, (unsigned long long)wanted);
    }
}

/* The lent places before each call. */
static void ready(void) {
    for (size_t k = 0; k < WORDS; k++) answer[k] = FILL_WORD;
    memset(place, FILL_BYTE, sizeof place);
}

/* The number and every word of the answer. */
static void compare(const char *what, uint32_t number, uint32_t wanted, const uint64_t *values, size_t count) {
    expect(what, "the number", number, wanted);
    for (size_t k = 0; k < WORDS; k++) expect(what, "a word of the answer", answer[k], k < count ? values[k] : FILL_WORD);
}

/* Makes a call with the lent places ready, and compares what it tells. */
#define told(what, call, ...) (ready(), compare(what, call, __VA_ARGS__))

/* Every byte of the place, after that call. */
static void holds(const char *what, const uint8_t *bytes, size_t count) {
    size_t other = 0;
    for (size_t k = 0; k < sizeof place; k++) other += place[k] != (k < count ? bytes[k] : FILL_BYTE);
    expect(what, "the number of wrong bytes in the place", other, 0);
}

/* ---- inputs made by hand ---- */

static uint8_t made[ROOM];
static size_t made_size;
static uint8_t rules[(PAGEORIOLE_RULES + 1) * PAGEORIOLE_RULE];

/* Rule k: action by k's last bit (even permits), protocol k % 256, source port from k / 256 on, all else full. */
static void make_rules(void) {
    static const uint8_t full[PAGEORIOLE_RULE] = {[7] = 255, [8] = 255, [9] = 255, [10] = 255, [13] = 255, [14] = 255,
                                                  [19] = 255, [20] = 255, [21] = 255, [22] = 255, [25] = 255, [26] = 255};
    for (size_t k = 0; k <= PAGEORIOLE_RULES; k++) {
        uint8_t *rule = rules + k * PAGEORIOLE_RULE;
        memcpy(rule, full, sizeof full);
        rule[0] = (uint8_t)(1 - k % 2);
        rule[1] = rule[2] = (uint8_t)(k % 256);
        rule[11] = (uint8_t)(k / 256);
    }
}

static void begin(void) { made_size = 0; }

static void field(uint8_t tag, const uint8_t *value, size_t size) {
    made[made_size++] = tag;
    made[made_size++] = (uint8_t)(size / 256);
    made[made_size++] = (uint8_t)(size % 256);
    if (size != 0) memcpy(made + made_size, value, size);
    made_size += size;
}

static void catalogue(size_t count) {
    begin();
    for (size_t k = 0; k < count; k++) field(1, rules + k * PAGEORIOLE_RULE, PAGEORIOLE_RULE);
}

/* The first example: I = 0 1 2 3, T = 1 0 4 3, five rules. */
#define FIVE rules, (size_t)(5 * PAGEORIOLE_RULE)
#define THREE rules, (size_t)(3 * PAGEORIOLE_RULE)
#define TWO rules, (size_t)(2 * PAGEORIOLE_RULE)
#define I1 BYTES(0, 0, 0, 1, 0, 2, 0, 3)
#define T1 BYTES(0, 1, 0, 0, 0, 4, 0, 3)
#define PLAN_ONE BYTES(5, 0, 31, 1, 2, 0, 3, 0, 0, 2, 0, 2, 0, 0, 2, 0, 0, 0, 0, 1, 0, 0, 0, 0, 1, 0, 4, 0, 0, 1, 0, 3, 0, 0)
#define PLAN_TWO BYTES(5, 0, 16, 2, 3, 0, 3, 0, 4, 4, 0, 4, 0, 0, 5, 0, 1, 0, 2)
#define SCRIPT_ONE BYTES(1, 2, 0, 3, 0, 0, 2, 0, 2, 0, 0, 2, 0, 0, 0, 0, 1, 0, 0, 0, 0, 1, 0, 4, 0, 0, 1, 0, 3, 0, 0)
#define SCRIPT_TWO BYTES(2, 3, 0, 3, 0, 4, 4, 0, 4, 0, 0, 5, 0, 1, 0, 2)
/* Its third: I = 0 1 2, T = 2 0 1. */
#define I3 BYTES(0, 0, 0, 1, 0, 2)
#define T3 BYTES(0, 2, 0, 0, 0, 1)
/* The script of verdict 30, for I and its target 1 0 2 3. */
#define T30 BYTES(0, 1, 0, 0, 0, 2, 0, 3)
#define SCRIPT_30                                                                                                                              \
    BYTES(1, 2, 0, 1, 0, 0, 1, 0, 1, 0, 0, 2, 0, 0, 0, 0, 1, 0, 0, 0, 0, 2, 0, 2, 0, 0, 1, 0, 2, 0, 0, 2, 0, 3, 0, 0, 1, 0, 3, 0, 0)

static void first_example(void) {
    catalogue(5);
    field(2, I1);
    field(3, T1);
}

/* ---- files ---- */

static void read_as(const char *what, uint32_t number, const uint64_t *values, size_t count) {
    told(what, pageoriole_read(FILE_MADE, ANSWER), number, values, count);
}

static void check_read(void) {
    first_example();
    read_as("read, first example", PAGEORIOLE_DONE, VALUES(5, 153, 8, 164, 8, 0, 0, 0, 0, 0, 0, 0, 0, 0));
    told("read for the judge, first example", pageoriole_read_to_judge(FILE_MADE, ANSWER), PAGEORIOLE_NO_SCRIPT, VALUES(172));
    field(6, BYTES(1));
    field(4, NOTHING);
    field(5, SCRIPT_TWO);
    read_as("read, all fields", PAGEORIOLE_DONE, VALUES(5, 153, 8, 164, 8, 1, 175, 1, 1, 179, 0, 1, 182, 16));
    told("read for the judge, all fields", pageoriole_read_to_judge(FILE_MADE, ANSWER), PAGEORIOLE_DONE,
         VALUES(5, 153, 8, 164, 8, 1, 175, 1, 1, 179, 0, 1, 182, 16));
    made[made_size++] = 9;
    read_as("read 1, one byte behind the script", PAGEORIOLE_CUT, VALUES(198));
    told("read, four words of room", pageoriole_read(made, 198, answer, 4), PAGEORIOLE_DONE, VALUES(5, 153, 8, 164));
    told("read, no room", pageoriole_read(made, 198, NULL, 0), PAGEORIOLE_DONE, NULL, 0);
    first_example();
    made_size -= 1;
    read_as("read 1, a value cut off", PAGEORIOLE_CUT, VALUES(161));
    begin();
    read_as("read 3, the empty file", PAGEORIOLE_NO_TARGET, VALUES(0));
    told("read 3, the empty file at no address", pageoriole_read(NOTHING, ANSWER), PAGEORIOLE_NO_TARGET, VALUES(0));
    field(3, NOTHING);
    read_as("read 2", PAGEORIOLE_TAG, VALUES(0));
    catalogue(1);
    field(2, BYTES(0));
    read_as("read 4", PAGEORIOLE_LENGTH, VALUES(30));
    catalogue(2);
    made[RULE_FIELD + 3] = 2;
    read_as("read 5", PAGEORIOLE_BOUNDS, VALUES(30));
    catalogue(2);
    field(1, rules, PAGEORIOLE_RULE);
    read_as("read 6", PAGEORIOLE_EQUAL, VALUES(60));
    catalogue(PAGEORIOLE_RULES);
    field(2, NOTHING);
    field(3, NOTHING);
    read_as("read, 1,024 rules", PAGEORIOLE_DONE, VALUES(1024, 30723, 0, 30726, 0, 0, 0, 0, 0, 0, 0, 0, 0, 0));
    catalogue(PAGEORIOLE_RULES + 1);
    read_as("read 7", PAGEORIOLE_TOO_MANY, VALUES(30720));
    catalogue(2);
    field(2, BYTES(0, 2));
    read_as("read 8", PAGEORIOLE_OUTSIDE, VALUES(60));
    catalogue(2);
    field(2, BYTES(0, 1, 0, 1));
    read_as("read 9", PAGEORIOLE_TWICE, VALUES(60));
    catalogue(3);
    field(2, I3);
    field(3, T3);
    field(4, BYTES(0, 1, 0, 0));
    read_as("read 10", PAGEORIOLE_KEEP, VALUES(108));
    first_example();
    field(5, BYTES(1, 3, 0, 1, 0, 1));
    read_as("read 11", PAGEORIOLE_CODING, VALUES(172));
}

/* The first example with a default. */
static void with_default(const uint8_t *value, size_t size) {
    first_example();
    field(6, value, size);
}

static void check_read_default(void) {
    with_default(BYTES(1));
    read_as("read, a default", PAGEORIOLE_DONE, VALUES(5, 153, 8, 164, 8, 1, 175, 1, 0, 0, 0, 0, 0, 0));
    told("read for the judge, a default", pageoriole_read_to_judge(FILE_MADE, ANSWER), PAGEORIOLE_NO_SCRIPT, VALUES(176));
    field(6, BYTES(1));
    read_as("read 2, two defaults", PAGEORIOLE_TAG, VALUES(176));
    with_default(BYTES(0));
    read_as("read 50, a default of 0", PAGEORIOLE_DEFAULT, VALUES(172));
    told("read for the judge, 50", pageoriole_read_to_judge(FILE_MADE, ANSWER), PAGEORIOLE_DEFAULT, VALUES(172));
    with_default(BYTES(2));
    read_as("read 50, a default of 2", PAGEORIOLE_DEFAULT, VALUES(172));
    field(4, BYTES(0, 9));
    read_as("read 50 before 10", PAGEORIOLE_DEFAULT, VALUES(172));
    with_default(NOTHING);
    read_as("read 4, a default of no byte", PAGEORIOLE_LENGTH, VALUES(172));
    with_default(BYTES(1, 1));
    read_as("read 4, a default of two bytes", PAGEORIOLE_LENGTH, VALUES(172));
    with_default(BYTES(1));
    made_size -= 1;
    read_as("read 1, a default cut off", PAGEORIOLE_CUT, VALUES(172));
    first_example();
    field(4, NOTHING);
    field(6, BYTES(1));
    read_as("read 2, a default behind the keep list", PAGEORIOLE_TAG, VALUES(175));
    first_example();
    field(5, SCRIPT_TWO);
    field(6, BYTES(1));
    read_as("read 2, a default behind the script", PAGEORIOLE_TAG, VALUES(191));
    catalogue(5);
    field(2, I1);
    field(6, BYTES(1));
    read_as("read 2, a default before the target", PAGEORIOLE_TAG, VALUES(161));
}

static void check_decide_file(void) {
    first_example();
    told("decide by the initial policy", pageoriole_decide_file(FILE_MADE, false, 2, 0, 0, 0, 0, ANSWER), PAGEORIOLE_DONE, VALUES(1, 3));
    told("decide by the target", pageoriole_decide_file(FILE_MADE, true, 4, 0, 0, 0, 0, ANSWER), PAGEORIOLE_DONE, VALUES(1, 3));
    told("decide by a rule that denies", pageoriole_decide_file(FILE_MADE, true, 3, 0, 0, 0, 0, ANSWER), PAGEORIOLE_DONE, VALUES(0, 4));
    told("decide by the default", pageoriole_decide_file(FILE_MADE, true, 2, 0, 0, 0, 0, ANSWER), PAGEORIOLE_DONE, VALUES(0, 0));
    with_default(BYTES(1));
    told("decide by default permit", pageoriole_decide_file(FILE_MADE, true, 2, 0, 0, 0, 0, ANSWER), PAGEORIOLE_DONE, VALUES(1, 0));
    told("the same by the initial policy", pageoriole_decide_file(FILE_MADE, false, 4, 0, 0, 0, 0, ANSWER), PAGEORIOLE_DONE, VALUES(1, 0));
    told("a rule before the default", pageoriole_decide_file(FILE_MADE, true, 3, 0, 0, 0, 0, ANSWER), PAGEORIOLE_DONE, VALUES(0, 4));
    with_default(BYTES(0));
    told("decide 50", pageoriole_decide_file(FILE_MADE, true, 2, 0, 0, 0, 0, ANSWER), PAGEORIOLE_DEFAULT, VALUES(172));
    told("decide in a file turned away", pageoriole_decide_file(made, 160, true, 2, 0, 0, 0, 0, ANSWER), PAGEORIOLE_CUT, VALUES(150));
}

/* Records of flows that differ in their protocols alone. */
#define ZEROS 0, 0, 0, 0, 0, 0, 0, 0, 0, 0, 0, 0
#define FLOWS_432 BYTES(4, ZEROS, 3, ZEROS, 2, ZEROS)

static void check_decide_flows_file(void) {
    first_example();
    told("flows by the target", pageoriole_decide_flows_file(FILE_MADE, true, FLOWS_432, PLACE, ANSWER), PAGEORIOLE_DONE, VALUES(9));
    holds("flows by the target", BYTES(1, 0, 3, 0, 0, 4, 0, 0, 0));
    told("flows by the initial policy", pageoriole_decide_flows_file(FILE_MADE, false, FLOWS_432, PLACE, ANSWER), PAGEORIOLE_DONE, VALUES(9));
    holds("flows by the initial policy", BYTES(0, 0, 0, 0, 0, 4, 1, 0, 3));
    told("no flow", pageoriole_decide_flows_file(FILE_MADE, true, NOTHING, NOTHING, ANSWER), PAGEORIOLE_DONE, VALUES(0));
    told("flows in a file turned away", pageoriole_decide_flows_file(made, 160, true, BYTES(4), NOTHING, ANSWER), PAGEORIOLE_CUT, VALUES(150));
    told("flows 4", pageoriole_decide_flows_file(FILE_MADE, true, BYTES(4, ZEROS, 3), NOTHING, ANSWER), PAGEORIOLE_LENGTH, VALUES(0));
    told("flows 13", pageoriole_decide_flows_file(FILE_MADE, true, FLOWS_432, place, 8, ANSWER), PAGEORIOLE_ROOM, VALUES(9));
    holds("flows 13", NOTHING);
    with_default(BYTES(1));
    told("flows by default permit", pageoriole_decide_flows_file(FILE_MADE, true, FLOWS_432, PLACE, ANSWER), PAGEORIOLE_DONE, VALUES(9));
    holds("flows by default permit", BYTES(1, 0, 3, 0, 0, 4, 1, 0, 0));
    with_default(BYTES(0));
    told("flows 50", pageoriole_decide_flows_file(FILE_MADE, true, FLOWS_432, PLACE, ANSWER), PAGEORIOLE_DEFAULT, VALUES(172));
    holds("flows 50", NOTHING);
}

static void check_replay_file(void) {
    first_example();
    told("replay 12", pageoriole_replay_file(FILE_MADE, PLACE, ANSWER), PAGEORIOLE_NO_SCRIPT, VALUES(172));
    holds("replay 12", NOTHING);
    field(5, SCRIPT_TWO);
    told("replay to the target", pageoriole_replay_file(FILE_MADE, PLACE, ANSWER), PAGEORIOLE_DONE, VALUES(8));
    holds("replay to the target", T1);
    told("replay 13", pageoriole_replay_file(FILE_MADE, place, 7, ANSWER), PAGEORIOLE_ROOM, VALUES(8));
    holds("replay 13", NOTHING);
    first_example();
    field(5, BYTES(2, 5, 0, 1, 0, 1, 5, 0, 4, 0, 5));
    told("replay 22", pageoriole_replay_file(FILE_MADE, PLACE, ANSWER), PAGEORIOLE_PLACE, VALUES(2));
    holds("replay 22", NOTHING);
}

static void check_plan_file(void) {
    first_example();
    told("plan of type 1", pageoriole_plan_one_file(FILE_MADE, PLACE, ANSWER), PAGEORIOLE_DONE, VALUES(1, 6, 34));
    holds("plan of type 1", PLAN_ONE);
    told("plan of type 2", pageoriole_plan_two_file(FILE_MADE, PLACE, ANSWER), PAGEORIOLE_DONE, VALUES(2, 3, 19));
    holds("plan of type 2", PLAN_TWO);
    told("plan of type 1, 13", pageoriole_plan_one_file(FILE_MADE, place, 33, ANSWER), PAGEORIOLE_ROOM, VALUES(34));
    holds("plan of type 1, 13", NOTHING);
    told("plan of type 2, 13", pageoriole_plan_two_file(FILE_MADE, place, 18, ANSWER), PAGEORIOLE_ROOM, VALUES(19));
    holds("plan of type 2, 13", NOTHING);
    catalogue(3);
    field(2, I3);
    field(3, T3);
    field(4, BYTES(0, 0, 0, 1));
    told("plan with a keep list", pageoriole_plan_two_file(FILE_MADE, PLACE, ANSWER), PAGEORIOLE_DONE, VALUES(2, 1, 9));
    holds("plan with a keep list", BYTES(5, 0, 6, 2, 5, 0, 3, 0, 1));
}

static void check_judge_file(void) {
    first_example();
    told("judge 12", pageoriole_judge_file(FILE_MADE, ANSWER), PAGEORIOLE_NO_SCRIPT, VALUES(172));
    field(5, SCRIPT_ONE);
    told("judge 31", pageoriole_judge_file(FILE_MADE, ANSWER), PAGEORIOLE_NOT_FULL, NULL, 0);
    first_example();
    field(5, SCRIPT_TWO);
    told("judge 32", pageoriole_judge_file(FILE_MADE, ANSWER), PAGEORIOLE_SAFE, NULL, 0);
    first_example();
    field(5, BYTES(1));
    told("judge 24", pageoriole_judge_file(FILE_MADE, ANSWER), PAGEORIOLE_ELSEWHERE, VALUES(0));
    catalogue(4);
    field(2, I1);
    field(3, T30);
    field(5, SCRIPT_30);
    told("judge 30", pageoriole_judge_file(FILE_MADE, ANSWER), PAGEORIOLE_UNORDERED, VALUES(1, 2));
}

/* No command changes the default, so replay, plans and verdicts are the same under either. */
static void check_default_file(void) {
    with_default(BYTES(1));
    told("plan of type 1, a default", pageoriole_plan_one_file(FILE_MADE, PLACE, ANSWER), PAGEORIOLE_DONE, VALUES(1, 6, 34));
    holds("plan of type 1, a default", PLAN_ONE);
    told("plan of type 2, a default", pageoriole_plan_two_file(FILE_MADE, PLACE, ANSWER), PAGEORIOLE_DONE, VALUES(2, 3, 19));
    holds("plan of type 2, a default", PLAN_TWO);
    told("judge 12, a default", pageoriole_judge_file(FILE_MADE, ANSWER), PAGEORIOLE_NO_SCRIPT, VALUES(176));
    field(5, SCRIPT_ONE);
    told("judge 31, a default", pageoriole_judge_file(FILE_MADE, ANSWER), PAGEORIOLE_NOT_FULL, NULL, 0);
    told("replay, a default", pageoriole_replay_file(FILE_MADE, PLACE, ANSWER), PAGEORIOLE_DONE, VALUES(8));
    holds("replay, a default", T1);
    with_default(BYTES(1));
    field(5, SCRIPT_TWO);
    told("judge 32, a default", pageoriole_judge_file(FILE_MADE, ANSWER), PAGEORIOLE_SAFE, NULL, 0);
    with_default(BYTES(0));
    field(5, SCRIPT_TWO);
    told("plan of type 1, 50", pageoriole_plan_one_file(FILE_MADE, PLACE, ANSWER), PAGEORIOLE_DEFAULT, VALUES(172));
    holds("plan of type 1, 50", NOTHING);
    told("plan of type 2, 50", pageoriole_plan_two_file(FILE_MADE, PLACE, ANSWER), PAGEORIOLE_DEFAULT, VALUES(172));
    told("judge 50", pageoriole_judge_file(FILE_MADE, ANSWER), PAGEORIOLE_DEFAULT, VALUES(172));
    told("replay 50", pageoriole_replay_file(FILE_MADE, PLACE, ANSWER), PAGEORIOLE_DEFAULT, VALUES(172));
    holds("replay 50", NOTHING);
}

#define TEXT(words) (const uint8_t *)words, sizeof words - 1

/* The first example in words. */
#define ANY "source any port any destination any port any\n"
#define SHOWN_TEXT(action)                                                                                                                     \
    "rules 5\n0 permit protocol 0 " ANY "1 deny protocol 1 " ANY "2 permit protocol 2 " ANY "3 deny protocol 3 " ANY "4 permit protocol 4 " ANY    \
    "initial 4\n0 1 2 3\ntarget 4\n1 0 4 3\ndefault " action "\nkeep absent\nscript absent\n"
enum { SHOWN = sizeof SHOWN_TEXT("deny") - 1, SHOWN_PERMIT = sizeof SHOWN_TEXT("permit") - 1 };

static void check_text(void) {
    first_example();
    told("plan's text", pageoriole_plan_text(FILE_MADE, PLACE, ANSWER), PAGEORIOLE_DONE, VALUES(164));
    holds("plan's text", TEXT("type 1 initial 4 target 4 kept 1 commands 6\n1 del 3\n2 del 2\n3 del 0\n4 app 0\n5 app 4\n6 app 3\n"
                              "type 2 initial 4 target 4 kept 2 commands 3\n1 ins 3 4\n2 del 4\n3 mov 1 2\n"));
    told("plan's text, 13", pageoriole_plan_text(made, made_size, place, 163, ANSWER), PAGEORIOLE_ROOM, VALUES(164));
    holds("plan's text, 13", NOTHING);
    told("judge's text, 12", pageoriole_judge_text(FILE_MADE, PLACE, ANSWER), PAGEORIOLE_DONE, VALUES(18));
    holds("judge's text, 12", TEXT("refused 12 at 172\n"));
    catalogue(4);
    field(2, I1);
    field(3, T30);
    field(5, SCRIPT_30);
    told("judge's text, 30", pageoriole_judge_text(FILE_MADE, PLACE, ANSWER), PAGEORIOLE_DONE, VALUES(15));
    holds("judge's text, 30", TEXT("verdict 30 1 2\n"));
    told("judge's text, 13", pageoriole_judge_text(made, made_size, place, 14, ANSWER), PAGEORIOLE_ROOM, VALUES(15));
    holds("judge's text, 13", NOTHING);
    told("plan's text, 3", pageoriole_plan_text(NOTHING, PLACE, ANSWER), PAGEORIOLE_DONE, VALUES(15));
    holds("plan's text, 3", TEXT("refused 3 at 0\n"));
}

static void check_show_text(void) {
    first_example();
    told("file's text", pageoriole_show_text(FILE_MADE, PLACE, ANSWER), PAGEORIOLE_DONE, VALUES(SHOWN));
    holds("file's text", TEXT(SHOWN_TEXT("deny")));
    told("file's text, 13", pageoriole_show_text(made, made_size, place, SHOWN - 1, ANSWER), PAGEORIOLE_ROOM, VALUES(SHOWN));
    holds("file's text, 13", NOTHING);
    with_default(BYTES(1));
    told("file's text, a default", pageoriole_show_text(FILE_MADE, PLACE, ANSWER), PAGEORIOLE_DONE, VALUES(SHOWN_PERMIT));
    holds("file's text, a default", TEXT(SHOWN_TEXT("permit")));
    with_default(BYTES(0));
    told("file's text, 50", pageoriole_show_text(FILE_MADE, PLACE, ANSWER), PAGEORIOLE_DONE, VALUES(18));
    holds("file's text, 50", TEXT("refused 50 at 172\n"));
    told("file's text, 3", pageoriole_show_text(NOTHING, PLACE, ANSWER), PAGEORIOLE_DONE, VALUES(15));
    holds("file's text, 3", TEXT("refused 3 at 0\n"));
}

/* ---- field values ---- */

/* What is lent for an absent default, keep list or script, and must not be looked at. */
#define ABSENT false, BYTES(7)
#define HERE(...) true, BYTES(__VA_ARGS__)
#define PERMITS HERE(1)

#define passes(what, call) told(what, call, PAGEORIOLE_DONE, NULL, 0)
#define turned(what, call, wanted) told(what, call, wanted, VALUES(0))

static void check_check(void) {
    static uint8_t other[2 * PAGEORIOLE_RULE];
    passes("check, first example", pageoriole_check(FIVE, I1, T1, ABSENT, ABSENT, ABSENT, ANSWER));
    passes("check, all there", pageoriole_check(THREE, I3, T3, PERMITS, HERE(0, 0, 0, 1), HERE(2), ANSWER));
    passes("check, all empty", pageoriole_check(NOTHING, NOTHING, NOTHING, ABSENT, true, NOTHING, false, NOTHING, ANSWER));
    turned("check 4, rules", pageoriole_check(rules, 26, I1, T1, ABSENT, ABSENT, ABSENT, ANSWER), PAGEORIOLE_LENGTH);
    turned("check 4, initial", pageoriole_check(FIVE, BYTES(0), T1, ABSENT, ABSENT, ABSENT, ANSWER), PAGEORIOLE_LENGTH);
    turned("check 4, target", pageoriole_check(FIVE, I1, BYTES(0), ABSENT, ABSENT, ABSENT, ANSWER), PAGEORIOLE_LENGTH);
    turned("check 4, keep list", pageoriole_check(FIVE, I1, T1, ABSENT, HERE(0), ABSENT, ANSWER), PAGEORIOLE_LENGTH);
    turned("check 4, script", pageoriole_check(FIVE, I1, T1, ABSENT, ABSENT, true, NOTHING, ANSWER), PAGEORIOLE_LENGTH);
    turned("check 7", pageoriole_check(rules, sizeof rules, I1, T1, ABSENT, ABSENT, ABSENT, ANSWER), PAGEORIOLE_TOO_MANY);
    memcpy(other, rules, sizeof other);
    other[2] = 5;
    other[1] = 6;
    turned("check 5", pageoriole_check(other, sizeof other, NOTHING, NOTHING, ABSENT, ABSENT, ABSENT, ANSWER), PAGEORIOLE_BOUNDS);
    memcpy(other, rules + PAGEORIOLE_RULE, PAGEORIOLE_RULE);
    turned("check 6", pageoriole_check(other, sizeof other, NOTHING, NOTHING, ABSENT, ABSENT, ABSENT, ANSWER), PAGEORIOLE_EQUAL);
    turned("check 8, initial", pageoriole_check(FIVE, BYTES(0, 5), T1, ABSENT, ABSENT, ABSENT, ANSWER), PAGEORIOLE_OUTSIDE);
    turned("check 8, target", pageoriole_check(FIVE, I1, BYTES(0, 5), ABSENT, ABSENT, ABSENT, ANSWER), PAGEORIOLE_OUTSIDE);
    turned("check 9", pageoriole_check(FIVE, I1, BYTES(0, 3, 0, 3), ABSENT, ABSENT, ABSENT, ANSWER), PAGEORIOLE_TWICE);
    turned("check 10", pageoriole_check(THREE, I3, T3, ABSENT, HERE(0, 1, 0, 0), ABSENT, ANSWER), PAGEORIOLE_KEEP);
    turned("check 11", pageoriole_check(FIVE, I1, T1, ABSENT, ABSENT, HERE(3), ANSWER), PAGEORIOLE_CODING);
}

static void check_write(void) {
    first_example();
    told("write, first example", pageoriole_write(FIVE, I1, T1, ABSENT, ABSENT, ABSENT, PLACE, ANSWER), PAGEORIOLE_DONE, VALUES(172));
    holds("write, first example", FILE_MADE);
    field(4, NOTHING);
    told("write, an empty keep list", pageoriole_write(FIVE, I1, T1, ABSENT, true, NOTHING, ABSENT, PLACE, ANSWER), PAGEORIOLE_DONE, VALUES(175));
    holds("write, an empty keep list", FILE_MADE);
    first_example();
    field(5, SCRIPT_TWO);
    told("write, a script", pageoriole_write(FIVE, I1, T1, ABSENT, ABSENT, true, SCRIPT_TWO, PLACE, ANSWER), PAGEORIOLE_DONE, VALUES(191));
    holds("write, a script", FILE_MADE);
    told("write 13", pageoriole_write(FIVE, I1, T1, ABSENT, ABSENT, ABSENT, place, 171, ANSWER), PAGEORIOLE_ROOM, VALUES(172));
    holds("write 13", NOTHING);
    told("write 11", pageoriole_write(FIVE, I1, T1, ABSENT, ABSENT, HERE(3), PLACE, ANSWER), PAGEORIOLE_CODING, VALUES(0));
    holds("write 11", NOTHING);
}

static void check_check_default(void) {
    turned("check 4, a default of no byte", pageoriole_check(FIVE, I1, T1, true, NOTHING, ABSENT, ABSENT, ANSWER), PAGEORIOLE_LENGTH);
    turned("check 4, a default of two bytes", pageoriole_check(FIVE, I1, T1, HERE(1, 1), ABSENT, ABSENT, ANSWER), PAGEORIOLE_LENGTH);
    turned("check 50, a default of 0", pageoriole_check(FIVE, I1, T1, HERE(0), ABSENT, ABSENT, ANSWER), PAGEORIOLE_DEFAULT);
    turned("check 50, a default of 2", pageoriole_check(FIVE, I1, T1, HERE(2), ABSENT, ABSENT, ANSWER), PAGEORIOLE_DEFAULT);
    turned("check 9 before 50", pageoriole_check(FIVE, I1, BYTES(0, 3, 0, 3), HERE(0), ABSENT, ABSENT, ANSWER), PAGEORIOLE_TWICE);
    turned("check 50 before 10", pageoriole_check(THREE, I3, T3, HERE(0), HERE(0, 1, 0, 0), ABSENT, ANSWER), PAGEORIOLE_DEFAULT);
    turned("check 50 before 11", pageoriole_check(FIVE, I1, T1, HERE(0), ABSENT, HERE(3), ANSWER), PAGEORIOLE_DEFAULT);
}

/* The default is written, reads back, and takes its four bytes of room. */
static void check_write_default(void) {
    with_default(BYTES(1));
    told("write, a default", pageoriole_write(FIVE, I1, T1, PERMITS, ABSENT, ABSENT, PLACE, ANSWER), PAGEORIOLE_DONE, VALUES(176));
    holds("write, a default", FILE_MADE);
    compare("read what is written", pageoriole_read(place, 176, ANSWER), PAGEORIOLE_DONE,
            VALUES(5, 153, 8, 164, 8, 1, 175, 1, 0, 0, 0, 0, 0, 0));
    field(4, NOTHING);
    field(5, SCRIPT_TWO);
    told("write, all fields", pageoriole_write(FIVE, I1, T1, PERMITS, true, NOTHING, true, SCRIPT_TWO, PLACE, ANSWER), PAGEORIOLE_DONE,
         VALUES(198));
    holds("write, all fields", FILE_MADE);
    told("write 13, a default", pageoriole_write(FIVE, I1, T1, PERMITS, ABSENT, ABSENT, place, 175, ANSWER), PAGEORIOLE_ROOM, VALUES(176));
    holds("write 13, a default", NOTHING);
    turned("write 50", pageoriole_write(FIVE, I1, T1, HERE(0), ABSENT, ABSENT, PLACE, ANSWER), PAGEORIOLE_DEFAULT);
    holds("write 50", NOTHING);
}

/* One rule whose five ranges differ: protocol 6, source 10.0.0.0 to 10.0.0.255, port 258 to 515, destination 20.1.0.0 to 20.1.0.1, port 1027. */
#define ONE_RULE BYTES(1, 6, 6, 10, 0, 0, 0, 10, 0, 0, 255, 1, 2, 2, 3, 20, 1, 0, 0, 20, 1, 0, 1, 4, 3, 4, 3)
#define ALONE BYTES(0, 0)
#define TEN 0x0a000000u
#define TWENTY 0x14010000u
/* It is the only one of its policy, so the place of a flow that it permits is 1. */
static const struct {
    uint8_t protocol;
    uint32_t source;
    uint16_t source_port;
    uint32_t destination;
    uint16_t destination_port;
    uint8_t action;
} flows[] = {{6, TEN, 258, TWENTY, 1027, 1},       {6, TEN + 255, 515, TWENTY + 1, 1027, 1}, {7, TEN, 258, TWENTY, 1027, 0},
             {6, TEN + 256, 258, TWENTY, 1027, 0}, {6, TEN, 257, TWENTY, 1027, 0},           {6, TEN, 516, TWENTY, 1027, 0},
             {6, TEN, 258, TWENTY + 2, 1027, 0},   {6, TEN, 258, TWENTY, 1026, 0}};
enum { FLOWS = sizeof flows / sizeof *flows };

/* Permits every flow to destination port 0. */
#define PORT_ZERO BYTES(1, 0, 255, 0, 0, 0, 0, 255, 255, 255, 255, 0, 0, 255, 255, 0, 0, 0, 0, 255, 255, 255, 255, 0, 0, 0, 0)

static void check_decide(void) {
    for (size_t k = 0; k < FLOWS; k++) {
        told("decide",
             pageoriole_decide(ONE_RULE, ALONE, ABSENT, flows[k].protocol, flows[k].source, flows[k].source_port, flows[k].destination,
                               flows[k].destination_port, ANSWER),
             PAGEORIOLE_DONE, VALUES(flows[k].action, flows[k].action));
    }
    told("decide by the third", pageoriole_decide(FIVE, T1, ABSENT, 4, 0, 0, 0, 0, ANSWER), PAGEORIOLE_DONE, VALUES(1, 3));
    told("decide by no rule", pageoriole_decide(FIVE, NOTHING, ABSENT, 4, 0, 0, 0, 0, ANSWER), PAGEORIOLE_DONE, VALUES(0, 0));
    told("decide by no rule, default permit", pageoriole_decide(FIVE, NOTHING, PERMITS, 4, 0, 0, 0, 0, ANSWER), PAGEORIOLE_DONE, VALUES(1, 0));
    told("decide, default permit", pageoriole_decide(FIVE, T1, PERMITS, 3, 0, 0, 0, 0, ANSWER), PAGEORIOLE_DONE, VALUES(0, 4));
    turned("decide 4, default", pageoriole_decide(FIVE, T1, HERE(1, 1), 0, 0, 0, 0, 0, ANSWER), PAGEORIOLE_LENGTH);
    turned("decide 50", pageoriole_decide(FIVE, T1, HERE(0), 0, 0, 0, 0, 0, ANSWER), PAGEORIOLE_DEFAULT);
    turned("decide 8 before 50", pageoriole_decide(FIVE, BYTES(0, 5), HERE(0), 0, 0, 0, 0, 0, ANSWER), PAGEORIOLE_OUTSIDE);
    told("decide, protocol 47", pageoriole_decide(PORT_ZERO, ALONE, ABSENT, 47, TEN, 0, TWENTY, 0, ANSWER), PAGEORIOLE_DONE, VALUES(1, 1));
    told("decide 8", pageoriole_decide(FIVE, BYTES(0, 5), ABSENT, 0, 0, 0, 0, 0, ANSWER), PAGEORIOLE_OUTSIDE, VALUES(0));
    told("decide 4", pageoriole_decide(rules, 26, ALONE, ABSENT, 0, 0, 0, 0, 0, ANSWER), PAGEORIOLE_LENGTH, VALUES(0));
}

static void put_record(uint8_t *record, size_t k) {
    const uint32_t words[] = {flows[k].source, flows[k].source_port, flows[k].destination, flows[k].destination_port};
    const unsigned widths[] = {4, 2, 4, 2};
    *record++ = flows[k].protocol;
    for (size_t n = 0; n < 4; n++)
        for (unsigned b = widths[n]; b > 0; b--) *record++ = (uint8_t)(words[n] >> 8 * (b - 1));
}

static void check_decide_flows(void) {
    static uint8_t made_flows[FLOWS * 13], wanted[FLOWS * 3];
    for (size_t k = 0; k < FLOWS; k++) {
        put_record(made_flows + 13 * k, k);
        wanted[3 * k] = wanted[3 * k + 2] = flows[k].action;
    }
    told("flows", pageoriole_decide_flows(ONE_RULE, ALONE, ABSENT, made_flows, sizeof made_flows, PLACE, ANSWER), PAGEORIOLE_DONE,
         VALUES(3 * FLOWS));
    holds("flows", wanted, sizeof wanted);
    told("flows by five rules", pageoriole_decide_flows(FIVE, T1, ABSENT, FLOWS_432, PLACE, ANSWER), PAGEORIOLE_DONE, VALUES(9));
    holds("flows by five rules", BYTES(1, 0, 3, 0, 0, 4, 0, 0, 0));
    told("flows, default permit", pageoriole_decide_flows(FIVE, T1, PERMITS, FLOWS_432, PLACE, ANSWER), PAGEORIOLE_DONE, VALUES(9));
    holds("flows, default permit", BYTES(1, 0, 3, 0, 0, 4, 1, 0, 0));
    turned("flows 4, default", pageoriole_decide_flows(FIVE, T1, true, NOTHING, FLOWS_432, PLACE, ANSWER), PAGEORIOLE_LENGTH);
    turned("flows 50", pageoriole_decide_flows(FIVE, T1, HERE(0), BYTES(4), PLACE, ANSWER), PAGEORIOLE_DEFAULT);
    holds("flows 50", NOTHING);
    told("no flow", pageoriole_decide_flows(FIVE, T1, ABSENT, NOTHING, PLACE, ANSWER), PAGEORIOLE_DONE, VALUES(0));
    holds("no flow", NOTHING);
    turned("flows 8", pageoriole_decide_flows(FIVE, BYTES(0, 5), ABSENT, BYTES(4), NOTHING, ANSWER), PAGEORIOLE_OUTSIDE);
    turned("flows 4, rules", pageoriole_decide_flows(rules, 26, ALONE, ABSENT, FLOWS_432, PLACE, ANSWER), PAGEORIOLE_LENGTH);
    turned("flows 4", pageoriole_decide_flows(FIVE, T1, ABSENT, BYTES(ZEROS), NOTHING, ANSWER), PAGEORIOLE_LENGTH);
    holds("flows 4", NOTHING);
    told("flows 13", pageoriole_decide_flows(FIVE, T1, ABSENT, FLOWS_432, place, 8, ANSWER), PAGEORIOLE_ROOM, VALUES(9));
    holds("flows 13", NOTHING);
}

static void check_replay(void) {
    told("replay", pageoriole_replay(FIVE, I1, ABSENT, SCRIPT_ONE, PLACE, ANSWER), PAGEORIOLE_DONE, VALUES(8));
    holds("replay", T1);
    told("replay, insert behind the last", pageoriole_replay(THREE, BYTES(0, 0, 0, 1), ABSENT, BYTES(2, 3, 0, 3, 0, 2), PLACE, ANSWER),
         PAGEORIOLE_DONE, VALUES(6));
    holds("replay, insert behind the last", I3);
    told("replay 20", pageoriole_replay(TWO, BYTES(0, 0, 0, 1), ABSENT, BYTES(1, 1, 0, 1, 0, 0), PLACE, ANSWER), PAGEORIOLE_PRESENT, VALUES(1));
    holds("replay 20", NOTHING);
    told("replay 21", pageoriole_replay(TWO, BYTES(0, 0), ABSENT, BYTES(1, 1, 0, 1, 0, 0, 2, 0, 0, 0, 0, 2, 0, 0, 0, 0), PLACE, ANSWER),
         PAGEORIOLE_ABSENT, VALUES(3));
    told("replay 22", pageoriole_replay(TWO, BYTES(0, 0, 0, 1), ABSENT, BYTES(2, 5, 0, 2, 0, 3), PLACE, ANSWER), PAGEORIOLE_PLACE, VALUES(1));
    told("replay 23", pageoriole_replay(TWO, BYTES(0, 0), ABSENT, BYTES(1, 1, 0, 2, 0, 0), PLACE, ANSWER), PAGEORIOLE_NUMBER, VALUES(1));
    told("replay 13", pageoriole_replay(FIVE, I1, ABSENT, SCRIPT_ONE, place, 7, ANSWER), PAGEORIOLE_ROOM, VALUES(8));
    holds("replay 13", NOTHING);
    told("replay, default permit", pageoriole_replay(FIVE, I1, PERMITS, SCRIPT_ONE, PLACE, ANSWER), PAGEORIOLE_DONE, VALUES(8));
    holds("replay, default permit", T1);
    turned("replay 4, default", pageoriole_replay(FIVE, I1, HERE(1, 1), SCRIPT_ONE, PLACE, ANSWER), PAGEORIOLE_LENGTH);
    turned("replay 50 before 11", pageoriole_replay(FIVE, I1, HERE(0), BYTES(9), PLACE, ANSWER), PAGEORIOLE_DEFAULT);
    holds("replay 50 before 11", NOTHING);
    told("replay 9", pageoriole_replay(FIVE, BYTES(0, 1, 0, 1), ABSENT, SCRIPT_ONE, PLACE, ANSWER), PAGEORIOLE_TWICE, VALUES(0));
    told("replay 11", pageoriole_replay(FIVE, I1, ABSENT, BYTES(9), PLACE, ANSWER), PAGEORIOLE_CODING, VALUES(0));
    holds("replay 11", NOTHING);
}

static void check_plan(void) {
    told("plan one", pageoriole_plan_one(FIVE, I1, T1, ABSENT, ABSENT, ABSENT, PLACE, ANSWER), PAGEORIOLE_DONE, VALUES(1, 6, 34));
    holds("plan one", PLAN_ONE);
    told("plan two", pageoriole_plan_two(FIVE, I1, T1, ABSENT, ABSENT, ABSENT, PLACE, ANSWER), PAGEORIOLE_DONE, VALUES(2, 3, 19));
    holds("plan two", PLAN_TWO);
    told("plan two, keep 0 1", pageoriole_plan_two(THREE, I3, T3, ABSENT, HERE(0, 0, 0, 1), ABSENT, PLACE, ANSWER), PAGEORIOLE_DONE,
         VALUES(2, 1, 9));
    holds("plan two, keep 0 1", BYTES(5, 0, 6, 2, 5, 0, 3, 0, 1));
    told("plan two, keep absent", pageoriole_plan_two(THREE, I3, T3, ABSENT, ABSENT, ABSENT, PLACE, ANSWER), PAGEORIOLE_DONE, VALUES(1, 2, 14));
    holds("plan two, keep absent", BYTES(5, 0, 11, 2, 5, 0, 2, 0, 3, 5, 0, 1, 0, 2));
    told("plan two, keep empty", pageoriole_plan_two(TWO, BYTES(0, 0, 0, 1), BYTES(0, 1, 0, 0), ABSENT, true, NOTHING, ABSENT, PLACE, ANSWER),
         PAGEORIOLE_DONE, VALUES(0, 1, 9));
    holds("plan two, keep empty", BYTES(5, 0, 6, 2, 5, 0, 2, 0, 1));
    told("plan one, I = T", pageoriole_plan_one(FIVE, I1, I1, ABSENT, ABSENT, ABSENT, PLACE, ANSWER), PAGEORIOLE_DONE, VALUES(4, 0, 4));
    holds("plan one, I = T", BYTES(5, 0, 1, 1));
    told("plan two, both empty", pageoriole_plan_two(NOTHING, NOTHING, NOTHING, ABSENT, ABSENT, ABSENT, PLACE, ANSWER), PAGEORIOLE_DONE,
         VALUES(0, 0, 4));
    holds("plan two, both empty", BYTES(5, 0, 1, 2));
    told("plan one 11", pageoriole_plan_one(FIVE, I1, T1, ABSENT, ABSENT, HERE(3), PLACE, ANSWER), PAGEORIOLE_CODING, VALUES(0));
    holds("plan one 11", NOTHING);
    told("plan two 10", pageoriole_plan_two(THREE, I3, T3, ABSENT, HERE(0, 1, 0, 0), ABSENT, PLACE, ANSWER), PAGEORIOLE_KEEP, VALUES(0));
    told("plan one 13", pageoriole_plan_one(FIVE, I1, T1, ABSENT, ABSENT, ABSENT, place, 33, ANSWER), PAGEORIOLE_ROOM, VALUES(34));
    holds("plan one 13", NOTHING);
    told("plan two 13", pageoriole_plan_two(FIVE, I1, T1, ABSENT, ABSENT, ABSENT, NULL, 0, ANSWER), PAGEORIOLE_ROOM, VALUES(19));
}

static void check_judge(void) {
    told("judge 31, first example", pageoriole_judge(FIVE, I1, T1, ABSENT, ABSENT, SCRIPT_ONE, ANSWER), PAGEORIOLE_NOT_FULL, NULL, 0);
    told("judge 32, first example", pageoriole_judge(FIVE, I1, T1, ABSENT, ABSENT, SCRIPT_TWO, ANSWER), PAGEORIOLE_SAFE, NULL, 0);
    told("judge 31, a hole", pageoriole_judge(TWO, BYTES(0, 0), BYTES(0, 1), ABSENT, ABSENT, BYTES(2, 4, 0, 1, 0, 0, 3, 0, 1, 0, 1), ANSWER),
         PAGEORIOLE_NOT_FULL, NULL, 0);
    told("judge 32, both empty", pageoriole_judge(NOTHING, NOTHING, NOTHING, ABSENT, true, NOTHING, BYTES(1), ANSWER), PAGEORIOLE_SAFE, NULL, 0);
    told("judge 30", pageoriole_judge(FIVE, I1, T30, ABSENT, ABSENT, SCRIPT_30, ANSWER), PAGEORIOLE_UNORDERED, VALUES(1, 2));
    told("judge 24", pageoriole_judge(FIVE, I1, T30, ABSENT, ABSENT, SCRIPT_TWO, ANSWER), PAGEORIOLE_ELSEWHERE, VALUES(3));
    told("judge 20", pageoriole_judge(TWO, BYTES(0, 0), BYTES(0, 1), ABSENT, ABSENT, BYTES(2, 3, 0, 1, 0, 0), ANSWER), PAGEORIOLE_PRESENT,
         VALUES(1));
    told("judge 21",
         pageoriole_judge(TWO, BYTES(0, 0), BYTES(0, 1), ABSENT, ABSENT, BYTES(1, 1, 0, 1, 0, 0, 2, 0, 0, 0, 0, 2, 0, 0, 0, 0), ANSWER),
         PAGEORIOLE_ABSENT, VALUES(3));
    told("judge 22", pageoriole_judge(TWO, BYTES(0, 0, 0, 1), BYTES(0, 1), ABSENT, ABSENT, BYTES(2, 5, 0, 2, 0, 3), ANSWER), PAGEORIOLE_PLACE,
         VALUES(1));
    told("judge 23", pageoriole_judge(TWO, BYTES(0, 0), BYTES(0, 1), ABSENT, ABSENT, BYTES(1, 1, 0, 2, 0, 0), ANSWER), PAGEORIOLE_NUMBER,
         VALUES(1));
    told("judge 10", pageoriole_judge(THREE, I3, T3, ABSENT, HERE(0, 1, 0, 0), SCRIPT_TWO, ANSWER), PAGEORIOLE_KEEP, VALUES(0));
    told("judge 4", pageoriole_judge(THREE, I3, T3, ABSENT, ABSENT, NOTHING, ANSWER), PAGEORIOLE_LENGTH, VALUES(0));
}

/* Plans and verdicts under default permit: those under default deny. */
static void check_plan_default(void) {
    told("plan one, default permit", pageoriole_plan_one(FIVE, I1, T1, PERMITS, ABSENT, ABSENT, PLACE, ANSWER), PAGEORIOLE_DONE,
         VALUES(1, 6, 34));
    holds("plan one, default permit", PLAN_ONE);
    told("plan two, default permit", pageoriole_plan_two(FIVE, I1, T1, PERMITS, ABSENT, ABSENT, PLACE, ANSWER), PAGEORIOLE_DONE,
         VALUES(2, 3, 19));
    holds("plan two, default permit", PLAN_TWO);
    turned("plan one 4, default", pageoriole_plan_one(FIVE, I1, T1, true, NOTHING, ABSENT, ABSENT, PLACE, ANSWER), PAGEORIOLE_LENGTH);
    turned("plan two 4, default", pageoriole_plan_two(FIVE, I1, T1, HERE(1, 1), ABSENT, ABSENT, PLACE, ANSWER), PAGEORIOLE_LENGTH);
    turned("plan one 50", pageoriole_plan_one(FIVE, I1, T1, HERE(0), ABSENT, ABSENT, PLACE, ANSWER), PAGEORIOLE_DEFAULT);
    holds("plan one 50", NOTHING);
    turned("plan two 50", pageoriole_plan_two(FIVE, I1, T1, HERE(2), ABSENT, ABSENT, PLACE, ANSWER), PAGEORIOLE_DEFAULT);
    holds("plan two 50", NOTHING);
    told("judge 31, default permit", pageoriole_judge(FIVE, I1, T1, PERMITS, ABSENT, SCRIPT_ONE, ANSWER), PAGEORIOLE_NOT_FULL, NULL, 0);
    told("judge 32, default permit", pageoriole_judge(FIVE, I1, T1, PERMITS, ABSENT, SCRIPT_TWO, ANSWER), PAGEORIOLE_SAFE, NULL, 0);
    turned("judge 4, default", pageoriole_judge(FIVE, I1, T1, true, NOTHING, ABSENT, SCRIPT_TWO, ANSWER), PAGEORIOLE_LENGTH);
    turned("judge 50 before 10", pageoriole_judge(THREE, I3, T3, HERE(0), HERE(0, 1, 0, 0), SCRIPT_TWO, ANSWER), PAGEORIOLE_DEFAULT);
}

/* ---- console text ---- */

/* A call that writes: how many bytes it tells, and every byte of the place. */
static void compare_written(const char *what, uint32_t number, const uint8_t *bytes, size_t count) {
    compare(what, number, PAGEORIOLE_DONE, VALUES(count));
    holds(what, bytes, count);
}

/* A call that is turned away: its number, where, and that the place is as it was. */
static void compare_turned(const char *what, uint32_t number, uint32_t wanted, uint64_t at) {
    compare(what, number, wanted, VALUES(at));
    holds(what, NOTHING);
}

#define wrote(what, call, ...) (ready(), compare_written(what, call, __VA_ARGS__))
#define refused(what, call, ...) (ready(), compare_turned(what, call, __VA_ARGS__))

/* No room at all: what is refused ahead of 13 is refused here too. */
#define NO_PLACE place, (size_t)0
#define FOR_A false
#define FOR_B true

/* Both plans of the first example as text. */
#define LINES_ONE TEXT("del 3\ndel 2\ndel 0\napp 0\napp 4\napp 3\n")
#define LINES_TWO_A TEXT("ins 3 4\ndel 4\nmov 1 2\n")
#define LINES_TWO_B TEXT("ins 3 4\ndel 4\nmove 1 before 3\n")

/* Moves to later places, to the same and to earlier ones, with the least and the greatest numbers. */
#define MOVES                                                                                                                                  \
    2, 5, 0, 1, 255, 255, 5, 0, 2, 0, 2, 5, 0, 3, 0, 1, 5, 255, 255, 255, 255, 5, 0, 0, 0, 0, 5, 0, 0, 255, 255, 5, 255, 255, 0, 0
#define MOVES_A TEXT("mov 1 65535\nmov 2 2\nmov 3 1\nmov 65535 65535\nmov 0 0\nmov 0 65535\nmov 65535 0\n")
#define MOVES_B                                                                                                                                \
    TEXT("move 1 before 65536\nmove 2 before 2\nmove 3 before 1\nmove 65535 before 65535\nmove 0 before 0\nmove 0 before 65536\n"              \
         "move 65535 before 0\n")
/* The same moves by the other number where there are two: one past the rule itself. */
#define MOVES_B_AGAIN                                                                                                                          \
    TEXT("move 1 before 65536\nmove 2 before 3\nmove 3 before 1\nmove 65535 before 65536\nmove 0 before 1\nmove 0 before 65536\n"              \
         "move 65535 before 0\n")

static void check_script_text(void) {
    static uint8_t too_long[1 + 5 * 2049] = {1};
    for (int maker = 0; maker < 2; maker++) {
        wrote("text of type 1", pageoriole_script_text(SCRIPT_ONE, maker, PLACE, ANSWER), LINES_ONE);
        wrote("text of no command, type 1", pageoriole_script_text(BYTES(1), maker, NOTHING, ANSWER), NOTHING);
        wrote("text of no command, type 2", pageoriole_script_text(BYTES(2), maker, PLACE, ANSWER), NOTHING);
        refused("text 4, no byte", pageoriole_script_text(NOTHING, maker, NO_PLACE, ANSWER), PAGEORIOLE_LENGTH, 0);
        refused("text 4, half a command", pageoriole_script_text(BYTES(1, 1, 0, 1), maker, NO_PLACE, ANSWER), PAGEORIOLE_LENGTH, 0);
        refused("text 4, 2,049 commands", pageoriole_script_text(too_long, sizeof too_long, maker, NO_PLACE, ANSWER), PAGEORIOLE_LENGTH, 0);
        refused("text 4 before 11", pageoriole_script_text(BYTES(3, 0), maker, NO_PLACE, ANSWER), PAGEORIOLE_LENGTH, 0);
        refused("text 11, type", pageoriole_script_text(BYTES(3), maker, NO_PLACE, ANSWER), PAGEORIOLE_CODING, 0);
        refused("text 11, code", pageoriole_script_text(BYTES(2, 1, 0, 1, 0, 0), maker, NO_PLACE, ANSWER), PAGEORIOLE_CODING, 0);
        refused("text 11, number", pageoriole_script_text(BYTES(1, 1, 0, 1, 0, 1), maker, NO_PLACE, ANSWER), PAGEORIOLE_CODING, 0);
        refused("text 13, type 1", pageoriole_script_text(SCRIPT_ONE, maker, place, 35, ANSWER), PAGEORIOLE_ROOM, 36);
    }
    wrote("text of type 2, A", pageoriole_script_text(SCRIPT_TWO, FOR_A, PLACE, ANSWER), LINES_TWO_A);
    wrote("text of type 2, B", pageoriole_script_text(SCRIPT_TWO, FOR_B, PLACE, ANSWER), LINES_TWO_B);
    wrote("text with just room, A", pageoriole_script_text(SCRIPT_TWO, FOR_A, place, 22, ANSWER), LINES_TWO_A);
    wrote("text with just room, B", pageoriole_script_text(SCRIPT_TWO, FOR_B, place, 30, ANSWER), LINES_TWO_B);
    refused("text 13, A", pageoriole_script_text(SCRIPT_TWO, FOR_A, place, 21, ANSWER), PAGEORIOLE_ROOM, 22);
    refused("text 13, B", pageoriole_script_text(SCRIPT_TWO, FOR_B, place, 29, ANSWER), PAGEORIOLE_ROOM, 30);
    wrote("text of moves, A", pageoriole_script_text(BYTES(MOVES), FOR_A, PLACE, ANSWER), MOVES_A);
    wrote("text of moves, B", pageoriole_script_text(BYTES(MOVES), FOR_B, PLACE, ANSWER), MOVES_B);
    told("text, no word of room", pageoriole_script_text(SCRIPT_TWO, FOR_B, PLACE, NULL, 0), PAGEORIOLE_DONE, NULL, 0);
}

/* A file for each number that every function over a file can return, and where. */
static const struct {
    uint32_t number;
    uint64_t at;
} refusals[] = {{1, 161}, {2, 0}, {3, 0}, {4, 30}, {5, 30}, {6, 60}, {7, 30720}, {8, 60}, {9, 60}, {10, 108}, {11, 172}, {50, 172}};
enum { REFUSALS = sizeof refusals / sizeof *refusals };

static void make_refused(uint32_t number) {
    switch (number) {
    case 1: first_example(), made_size -= 1; break;
    case 2: begin(), field(3, NOTHING); break;
    case 3: begin(); break;
    case 4: catalogue(1), field(2, BYTES(0)); break;
    case 5: catalogue(2), made[RULE_FIELD + 3] = 2; break;
    case 6: catalogue(2), field(1, rules, PAGEORIOLE_RULE); break;
    case 7: catalogue(PAGEORIOLE_RULES + 1); break;
    case 8: catalogue(2), field(2, BYTES(0, 2)); break;
    case 9: catalogue(2), field(2, BYTES(0, 1, 0, 1)); break;
    case 10: catalogue(3), field(2, I3), field(3, T3), field(4, BYTES(0, 1, 0, 0)); break;
    case 11: first_example(), field(5, BYTES(1, 3, 0, 1, 0, 1)); break;
    default: with_default(BYTES(0));
    }
}

static void check_text_of_refused(void) {
    for (size_t k = 0; k < REFUSALS; k++) {
        make_refused(refusals[k].number);
        for (int maker = 0; maker < 2; maker++) {
            refused("script's text, refused", pageoriole_script_text_file(FILE_MADE, maker, NO_PLACE, ANSWER), refusals[k].number, refusals[k].at);
            refused("plan one's text, refused", pageoriole_plan_one_text(FILE_MADE, maker, NO_PLACE, ANSWER), refusals[k].number, refusals[k].at);
            refused("plan two's text, refused", pageoriole_plan_two_text(FILE_MADE, maker, NO_PLACE, ANSWER), refusals[k].number, refusals[k].at);
        }
    }
}

static void check_script_text_file(void) {
    first_example();
    refused("script's text 12, A", pageoriole_script_text_file(FILE_MADE, FOR_A, NO_PLACE, ANSWER), PAGEORIOLE_NO_SCRIPT, 172);
    refused("script's text 12, B", pageoriole_script_text_file(FILE_MADE, FOR_B, NO_PLACE, ANSWER), PAGEORIOLE_NO_SCRIPT, 172);
    field(5, SCRIPT_ONE);
    wrote("script's text, type 1, A", pageoriole_script_text_file(FILE_MADE, FOR_A, PLACE, ANSWER), LINES_ONE);
    wrote("script's text, type 1, B", pageoriole_script_text_file(FILE_MADE, FOR_B, PLACE, ANSWER), LINES_ONE);
    with_default(BYTES(1));
    field(5, SCRIPT_TWO);
    wrote("script's text, type 2, A", pageoriole_script_text_file(FILE_MADE, FOR_A, PLACE, ANSWER), LINES_TWO_A);
    wrote("script's text, type 2, B", pageoriole_script_text_file(FILE_MADE, FOR_B, PLACE, ANSWER), LINES_TWO_B);
    refused("script's text 13, A", pageoriole_script_text_file(FILE_MADE, FOR_A, place, 21, ANSWER), PAGEORIOLE_ROOM, 22);
    refused("script's text 13, B", pageoriole_script_text_file(FILE_MADE, FOR_B, place, 29, ANSWER), PAGEORIOLE_ROOM, 30);
}

/* A script in the file is of no matter to its plans. */
static void check_plan_texts(void) {
    first_example();
    field(5, BYTES(MOVES));
    for (int maker = 0; maker < 2; maker++) {
        wrote("plan one's text", pageoriole_plan_one_text(FILE_MADE, maker, PLACE, ANSWER), LINES_ONE);
        refused("plan one's text 13", pageoriole_plan_one_text(FILE_MADE, maker, place, 35, ANSWER), PAGEORIOLE_ROOM, 36);
    }
    wrote("plan two's text, A", pageoriole_plan_two_text(FILE_MADE, FOR_A, PLACE, ANSWER), LINES_TWO_A);
    wrote("plan two's text, B", pageoriole_plan_two_text(FILE_MADE, FOR_B, PLACE, ANSWER), LINES_TWO_B);
    refused("plan two's text 13, A", pageoriole_plan_two_text(FILE_MADE, FOR_A, place, 21, ANSWER), PAGEORIOLE_ROOM, 22);
    refused("plan two's text 13, B", pageoriole_plan_two_text(FILE_MADE, FOR_B, place, 29, ANSWER), PAGEORIOLE_ROOM, 30);
    catalogue(3);
    field(2, I3);
    field(3, T3);
    field(4, BYTES(0, 0, 0, 1));
    wrote("plan two's text, a keep list, B", pageoriole_plan_two_text(FILE_MADE, FOR_B, PLACE, ANSWER), TEXT("move 3 before 1\n"));
    catalogue(1);
    field(2, NOTHING);
    field(3, NOTHING);
    wrote("plan one's text, no command", pageoriole_plan_one_text(FILE_MADE, FOR_A, NOTHING, ANSWER), NOTHING);
    wrote("plan two's text, no command", pageoriole_plan_two_text(FILE_MADE, FOR_B, NOTHING, ANSWER), NOTHING);
}

static void check_text_script(void) {
    for (int maker = 0; maker < 2; maker++) {
        wrote("read, type 1", pageoriole_text_script(LINES_ONE, 1, maker, PLACE, ANSWER), PLAN_ONE);
        wrote("read no line, type 1", pageoriole_text_script(NOTHING, 1, maker, PLACE, ANSWER), BYTES(5, 0, 1, 1));
        wrote("read no line, type 2", pageoriole_text_script(NOTHING, 2, maker, place, 4, ANSWER), BYTES(5, 0, 1, 2));
        wrote("read one text as type 1", pageoriole_text_script(TEXT("del 7\n"), 1, maker, PLACE, ANSWER), BYTES(5, 0, 6, 1, 2, 0, 7, 0, 0));
        wrote("read the same as type 2", pageoriole_text_script(TEXT("del 7\n"), 2, maker, PLACE, ANSWER), BYTES(5, 0, 6, 2, 4, 0, 7, 0, 0));
        refused("read 13, no line", pageoriole_text_script(NOTHING, 1, maker, place, 3, ANSWER), PAGEORIOLE_ROOM, 4);
        refused("read 13, type 1", pageoriole_text_script(LINES_ONE, 1, maker, place, 33, ANSWER), PAGEORIOLE_ROOM, 34);
        refused("read 11, type 0", pageoriole_text_script(TEXT("x"), 0, maker, NO_PLACE, ANSWER), PAGEORIOLE_CODING, 0);
        refused("read 11, type 3", pageoriole_text_script(TEXT("del 65536\n"), 3, maker, NO_PLACE, ANSWER), PAGEORIOLE_CODING, 0);
        refused("read 11, type 255", pageoriole_text_script(NOTHING, 255, maker, PLACE, ANSWER), PAGEORIOLE_CODING, 0);
        refused("read 56 before a line's 55", pageoriole_text_script(TEXT("del 65536\nx\n"), 2, maker, PLACE, ANSWER), PAGEORIOLE_BEYOND, 1);
        refused("read 55 before a line's 56", pageoriole_text_script(TEXT("x\ndel 65536\n"), 2, maker, PLACE, ANSWER), PAGEORIOLE_NO_COMMAND, 1);
    }
    wrote("read, A", pageoriole_text_script(LINES_TWO_A, 2, FOR_A, PLACE, ANSWER), PLAN_TWO);
    wrote("read, B", pageoriole_text_script(LINES_TWO_B, 2, FOR_B, PLACE, ANSWER), PLAN_TWO);
    refused("read 13, A", pageoriole_text_script(LINES_TWO_A, 2, FOR_A, place, 18, ANSWER), PAGEORIOLE_ROOM, 19);
    refused("read 13, B", pageoriole_text_script(LINES_TWO_B, 2, FOR_B, place, 18, ANSWER), PAGEORIOLE_ROOM, 19);
    wrote("read moves, A", pageoriole_text_script(MOVES_A, 2, FOR_A, PLACE, ANSWER), BYTES(5, 0, 36, MOVES));
    wrote("read moves, B", pageoriole_text_script(MOVES_B, 2, FOR_B, PLACE, ANSWER), BYTES(5, 0, 36, MOVES));
    wrote("read moves, B, once more", pageoriole_text_script(MOVES_B_AGAIN, 2, FOR_B, PLACE, ANSWER), BYTES(5, 0, 36, MOVES));
    told("read, no word of room", pageoriole_text_script(LINES_TWO_B, 2, FOR_B, PLACE, NULL, 0), PAGEORIOLE_DONE, NULL, 0);
}

/* Lines that aren't read: the number, and in which types (1, 2, or 3 for both) and for which makers (1 for A, 2 for B, 3 for both). */
static const struct {
    uint32_t number;
    int types, makers;
    const uint8_t *line;
    size_t size;
} lines[] = {{55, 3, 3, TEXT("\n")},
             {55, 3, 3, TEXT(" ")},
             {55, 3, 3, TEXT("d")},
             {55, 3, 3, TEXT("del")},
             {55, 3, 3, TEXT("del\n")},
             {55, 3, 3, TEXT("del \n")},
             {55, 3, 3, TEXT("del 1")},
             {55, 3, 3, TEXT("del 65536")},
             {55, 3, 3, TEXT("del1\n")},
             {55, 3, 3, TEXT("del  1\n")},
             {55, 3, 3, TEXT("del\t1\n")},
             {55, 3, 3, TEXT(" del 1\n")},
             {55, 3, 3, TEXT("del 1 \n")},
             {55, 3, 3, TEXT("del 1\r\n")},
             {55, 3, 3, TEXT("del 01\n")},
             {55, 3, 3, TEXT("del 00\n")},
             {55, 3, 3, TEXT("del +1\n")},
             {55, 3, 3, TEXT("del -1\n")},
             {55, 3, 3, TEXT("del 0x1\n")},
             {55, 3, 3, TEXT("del 1a\n")},
             {55, 3, 3, TEXT("del 1/\n")},
             {55, 3, 3, TEXT("del 1:\n")},
             {55, 3, 3, TEXT("del 1\0\n")},
             {55, 3, 3, TEXT("del 1 2\n")},
             {55, 3, 3, TEXT("DEL 1\n")},
             {55, 3, 3, TEXT("delete 1\n")},
             {55, 3, 3, TEXT("1 del 1\n")},
             {55, 3, 3, TEXT("del 65536 \n")},
             {55, 3, 3, TEXT("del 065536\n")},
             {55, 3, 3, TEXT("\xef\xbb\xbf" "del 1\n")},
             {55, 1, 3, TEXT("app\n")},
             {55, 1, 3, TEXT("app 1 2\n")},
             {55, 1, 3, TEXT("ins 1 2\n")},
             {55, 1, 3, TEXT("mov 1 2\n")},
             {55, 1, 3, TEXT("move 1 before 2\n")},
             {55, 2, 3, TEXT("app 1\n")},
             {55, 2, 3, TEXT("ins 1\n")},
             {55, 2, 3, TEXT("ins 1 \n")},
             {55, 2, 3, TEXT("ins 1  2\n")},
             {55, 2, 3, TEXT("ins 1 02\n")},
             {55, 2, 3, TEXT("ins 1 2 3\n")},
             {55, 2, 3, TEXT("ins 65536 x\n")},
             {55, 2, 1, TEXT("mov 1\n")},
             {55, 2, 1, TEXT("mov 1 before 2\n")},
             {55, 2, 1, TEXT("move 1 2\n")},
             {55, 2, 1, TEXT("move 1 before 2\n")},
             {55, 2, 2, TEXT("mov 1 2\n")},
             {55, 2, 2, TEXT("mov 1 before 2\n")},
             {55, 2, 2, TEXT("move 1\n")},
             {55, 2, 2, TEXT("move 1 2\n")},
             {55, 2, 2, TEXT("move 1 before\n")},
             {55, 2, 2, TEXT("move 1 before \n")},
             {55, 2, 2, TEXT("move 1 before 02\n")},
             {55, 2, 2, TEXT("move 1 before 2")},
             {55, 2, 2, TEXT("move 1 before  2\n")},
             {55, 2, 2, TEXT("move 1  before 2\n")},
             {55, 2, 2, TEXT("move 1 behind 2\n")},
             {55, 2, 2, TEXT("move before 2\n")},
             {55, 2, 2, TEXT("move 65536 before\n")},
             {56, 3, 3, TEXT("del 65536\n")},
             {56, 3, 3, TEXT("del 70000\n")},
             {56, 3, 3, TEXT("del 100000\n")},
             {56, 3, 3, TEXT("del 4294967297\n")},
             {56, 3, 3, TEXT("del 18446744073709551617\n")},
             {56, 3, 3, TEXT("del 340282366920938463463374607431768211457\n")},
             {56, 1, 3, TEXT("app 65536\n")},
             {56, 2, 3, TEXT("ins 65536 1\n")},
             {56, 2, 3, TEXT("ins 1 65536\n")},
             {56, 2, 1, TEXT("mov 65536 1\n")},
             {56, 2, 1, TEXT("mov 1 65536\n")},
             {56, 2, 2, TEXT("move 65536 before 1\n")},
             {56, 2, 2, TEXT("move 65536 before 65536\n")},
             {56, 2, 2, TEXT("move 1 before 65537\n")},
             {56, 2, 2, TEXT("move 1 before 18446744073709551617\n")}};
enum { LINES = sizeof lines / sizeof *lines };

/* Each of them alone, and as the third line. */
static void check_line(size_t k, uint8_t type, bool maker) {
    static uint8_t text[128] = "del 1\ndel 2\n";
    const char *what = (const char *)lines[k].line;
    memcpy(text + 12, lines[k].line, lines[k].size);
    refused(what, pageoriole_text_script(lines[k].line, lines[k].size, type, maker, NO_PLACE, ANSWER), lines[k].number, 1);
    refused(what, pageoriole_text_script(text, 12 + lines[k].size, type, maker, PLACE, ANSWER), lines[k].number, 3);
}

static void check_lines(void) {
    for (size_t k = 0; k < LINES; k++)
        for (int type = 1; type <= 2; type++)
            for (int maker = 0; maker < 2; maker++)
                if ((lines[k].types & type) != 0 && (lines[k].makers & (maker + 1)) != 0) check_line(k, (uint8_t)type, maker);
}

static size_t repeat(uint8_t *to, const uint8_t *bytes, size_t size, size_t times) {
    for (size_t k = 0; k < times; k++) memcpy(to + k * size, bytes, size);
    return times * size;
}

/* The longest text, of 2,048 commands, written and read; then with a 2,049th line. */
static void check_longest(bool maker, const uint8_t *line, size_t size) {
    static uint8_t text[ROOM], longest[10244] = {5, 40, 1, 2};
    size_t whole = repeat(text, line, size, 2048);
    repeat(longest + 4, BYTES(5, 255, 255, 255, 255), 2048);
    expect("longest text", "its size", whole, maker ? PAGEORIOLE_TEXT_B : PAGEORIOLE_TEXT_A);
    expect("longest script field", "its size", sizeof longest, PAGEORIOLE_SCRIPT_FIELD);
    wrote("longest text", pageoriole_script_text(longest + 3, sizeof longest - 3, maker, place, whole, ANSWER), text, whole);
    refused("longest text 13", pageoriole_script_text(longest + 3, sizeof longest - 3, maker, place, whole - 1, ANSWER), PAGEORIOLE_ROOM, whole);
    wrote("longest text, read", pageoriole_text_script(text, whole, 2, maker, place, sizeof longest, ANSWER), longest, sizeof longest);
    refused("longest text, 13", pageoriole_text_script(text, whole, 2, maker, place, sizeof longest - 1, ANSWER), PAGEORIOLE_ROOM, sizeof longest);
    memcpy(text + whole, line, size);
    refused("read 4", pageoriole_text_script(text, whole + size, 2, maker, NO_PLACE, ANSWER), PAGEORIOLE_LENGTH, 2049);
    refused("read 55 before 4", pageoriole_text_script(text, whole + size - 1, 2, maker, NO_PLACE, ANSWER), PAGEORIOLE_NO_COMMAND, 2049);
    memcpy(text + whole, "del 65536\nx\n", 12);
    refused("read 56 before 4", pageoriole_text_script(text, whole + 12, 2, maker, NO_PLACE, ANSWER), PAGEORIOLE_BEYOND, 2049);
    memcpy(text + whole, "del 1\nx\n", 8);
    refused("read 4 before the next line's 55", pageoriole_text_script(text, whole + 8, 2, maker, NO_PLACE, ANSWER), PAGEORIOLE_LENGTH, 2049);
}

/* ---- saved iptables rules ---- */

static uint8_t listing[ROOM];
static size_t listing_size;

#define LISTING listing, listing_size
#define COUNT(table) (sizeof table / sizeof *table)
#define HEAD TEXT("*filter\n:FORWARD DROP [0:0]\n")
#define END TEXT("COMMIT\n")
/* Five lines, which would be read otherwise in the part. */
#define OTHER_TABLE TEXT("# saved\n*nat\n:FORWARD ACCEPT [0:0]\n-A FORWARD -z\nCOMMIT\n")

static void add(const uint8_t *text, size_t size) {
    memcpy(listing + listing_size, text, size);
    listing_size += size;
}

/* A listing of this text alone. */
static void listed(const uint8_t *text, size_t size) {
    listing_size = 0;
    add(text, size);
}

/* A listing with this line in the third place. */
static void one_line(const uint8_t *line, size_t size) {
    listed(HEAD);
    add(line, size);
    add(END);
}

/* The file of rules that both policies have, one after another. */
static void listed_file(const uint8_t *records, size_t count, bool permits) {
    static uint8_t numbers[2 * 512];
    begin();
    for (size_t k = 0; k < count; k++) {
        field(1, records + 27 * k, 27);
        numbers[2 * k] = (uint8_t)(k / 256);
        numbers[2 * k + 1] = (uint8_t)(k % 256);
    }
    field(2, numbers, 2 * count);
    field(3, numbers, 2 * count);
    if (permits) field(6, BYTES(1));
}

/* The listing is brought in as these rules: with all room, with just enough, and not with a byte less. */
static void comes_in(const char *what, bool permits, const uint8_t *records, size_t size) {
    listed_file(records, size / 27, permits);
    wrote(what, pageoriole_from_iptables(LISTING, PLACE, ANSWER), FILE_MADE);
    wrote(what, pageoriole_from_iptables(LISTING, place, made_size, ANSWER), FILE_MADE);
    refused(what, pageoriole_from_iptables(LISTING, place, made_size - 1, ANSWER), PAGEORIOLE_ROOM, made_size);
}

/* The listing is turned away, whatever the place. */
static void stays_out(const char *what, uint32_t number, uint64_t at) {
    refused(what, pageoriole_from_iptables(LISTING, NO_PLACE, ANSWER), number, at);
    refused(what, pageoriole_from_iptables(LISTING, PLACE, ANSWER), number, at);
}

#define ALL_ADDRESSES 0, 0, 0, 0, 255, 255, 255, 255
#define ALL_PORTS 0, 0, 255, 255
#define BEHIND_PROTOCOL ALL_ADDRESSES, ALL_PORTS, ALL_ADDRESSES, ALL_PORTS
#define DENY_ALL 0, 0, 255, BEHIND_PROTOCOL
#define PERMIT_TCP 1, 6, 6, BEHIND_PROTOCOL

/* Rule lines, and the rules that they are. */
static const struct {
    const uint8_t *line;
    size_t size;
    uint8_t rule[27];
} rule_lines[] = {
    {TEXT("-A FORWARD -j DROP\n"), {DENY_ALL}},
    {TEXT("-A FORWARD -s 0.0.0.0/0 -d 9.9.9.9/0 -j DROP\n"), {DENY_ALL}},
    {TEXT("-A FORWARD -p tcp -j ACCEPT\n"), {PERMIT_TCP}},
    {TEXT("-A FORWARD -j ACCEPT -p 6\n"), {PERMIT_TCP}},
    {TEXT("-A FORWARD -p tcp -m tcp --sport 0:65535 -j ACCEPT\n"), {PERMIT_TCP}},
    {TEXT("-A FORWARD -p icmp -j DROP\n"), {0, 1, 1, BEHIND_PROTOCOL}},
    {TEXT("-A FORWARD -p 1 -j DROP\n"), {0, 1, 1, BEHIND_PROTOCOL}},
    {TEXT("-A FORWARD -p 255 -j DROP\n"), {0, 255, 255, BEHIND_PROTOCOL}},
    {TEXT("-A FORWARD -s 10.1.2.3 -j DROP\n"), {0, 0, 255, 10, 1, 2, 3, 10, 1, 2, 3, ALL_PORTS, ALL_ADDRESSES, ALL_PORTS}},
    {TEXT("-A FORWARD -s 10.1.2.3/32 -j DROP\n"), {0, 0, 255, 10, 1, 2, 3, 10, 1, 2, 3, ALL_PORTS, ALL_ADDRESSES, ALL_PORTS}},
    {TEXT("-A FORWARD -s 10.1.2.3/24 -j DROP\n"), {0, 0, 255, 10, 1, 2, 0, 10, 1, 2, 255, ALL_PORTS, ALL_ADDRESSES, ALL_PORTS}},
    {TEXT("-A FORWARD -d 10.1.2.3/31 -j DROP\n"), {0, 0, 255, ALL_ADDRESSES, ALL_PORTS, 10, 1, 2, 2, 10, 1, 2, 3, ALL_PORTS}},
    {TEXT("-A FORWARD -d 255.0.0.255/1 -j DROP\n"), {0, 0, 255, ALL_ADDRESSES, ALL_PORTS, 128, 0, 0, 0, 255, 255, 255, 255, ALL_PORTS}},
    {TEXT("-A FORWARD -p udp --sport 0 -j DROP\n"), {0, 17, 17, ALL_ADDRESSES, 0, 0, 0, 0, ALL_ADDRESSES, ALL_PORTS}},
    {TEXT("-A FORWARD -p udp -m udp --dport 65535 -j DROP\n"), {0, 17, 17, ALL_ADDRESSES, ALL_PORTS, ALL_ADDRESSES, 255, 255, 255, 255}},
    {TEXT("-A FORWARD -d 20.1.0.1/31 -s 10.0.0.9/24 -j ACCEPT -p tcp --dport 1027 -m tcp --sport 258:515\n"),
     {1, 6, 6, 10, 0, 0, 0, 10, 0, 0, 255, 1, 2, 2, 3, 20, 1, 0, 0, 20, 1, 0, 1, 4, 3, 4, 3}}};

static void check_rule_lines(void) {
    for (size_t k = 0; k < COUNT(rule_lines); k++) {
        const char *what = (const char *)rule_lines[k].line;
        one_line(rule_lines[k].line, rule_lines[k].size);
        comes_in(what, false, rule_lines[k].rule, 27);
    }
}

/* Lines of the part that are turned away; each is written as the listing has it, without its line feed. */
static const struct {
    uint32_t number;
    const uint8_t *line;
    size_t size;
} bad_lines[] = {
    {57, TEXT("[1:60] -A FORWARD -j DROP")},
    {57, TEXT("-I FORWARD -j DROP")},
    {57, TEXT("-A")},
    {57, TEXT("-A ")},
    {57, TEXT("-A  FORWARD -j DROP")},
    {57, TEXT(" -A FORWARD -j DROP")},
    {57, TEXT("-A\tFORWARD -j DROP")},
    {57, TEXT("-A \"FORWARD\" -j DROP")},
    {57, TEXT("-A we\tb -j DROP")},
    {57, TEXT("-A FORWARD")},
    {57, TEXT("-A FORWARD ")},
    {57, TEXT("-A FORWARD -s 1.2.3.4")},
    {57, TEXT("-A FORWARD -j")},
    {57, TEXT("-A FORWARD -j DROP ")},
    {57, TEXT("-A FORWARD -j  DROP")},
    {57, TEXT("-A FORWARD -j DROP\r")},
    {57, TEXT("-A FORWARD -j DROP -s")},
    {57, TEXT("-A FORWARD -j DROP -j DROP")},
    {57, TEXT("-A FORWARD -j REJECT")},
    {57, TEXT("-A FORWARD -j drop")},
    {57, TEXT("-A FORWARD -g web")},
    {57, TEXT("-A FORWARD -i eth0 -j DROP")},
    {57, TEXT("-A FORWARD ! -s 1.2.3.4 -j DROP")},
    {57, TEXT("-A FORWARD -s ! 1.2.3.4 -j DROP")},
    {57, TEXT("-A FORWARD -s 1.2.3.4 -s 1.2.3.4 -j DROP")},
    {57, TEXT("-A FORWARD -s 1.2.3 -j DROP")},
    {57, TEXT("-A FORWARD -s 1.2.3.4.5 -j DROP")},
    {57, TEXT("-A FORWARD -s 1.2.3.256 -j DROP")},
    {57, TEXT("-A FORWARD -s 01.2.3.4 -j DROP")},
    {57, TEXT("-A FORWARD -d 1.2.3.4/ -j DROP")},
    {57, TEXT("-A FORWARD -d 1.2.3.4/33 -j DROP")},
    {57, TEXT("-A FORWARD -d 1.2.3.4/08 -j DROP")},
    {57, TEXT("-A FORWARD -d 1.2.3.4/4294967304 -j DROP")},
    {57, TEXT("-A FORWARD -d 1.2.3.4/255.255.0.0 -j DROP")},
    {57, TEXT("-A FORWARD -p 0 -j DROP")},
    {57, TEXT("-A FORWARD -p 256 -j DROP")},
    {57, TEXT("-A FORWARD -p 18446744073709551622 -j DROP")},
    {57, TEXT("-A FORWARD -p TCP -j DROP")},
    {57, TEXT("-A FORWARD -p gre -j DROP")},
    {57, TEXT("-A FORWARD --dport 80 -j DROP")},
    {57, TEXT("-A FORWARD --dport 80 -p tcp -j DROP")},
    {57, TEXT("-A FORWARD -p 6 --dport 80 -j DROP")},
    {57, TEXT("-A FORWARD -p icmp --sport 80 -j DROP")},
    {57, TEXT("-A FORWARD -p tcp --dport 65536 -j DROP")},
    {57, TEXT("-A FORWARD -p tcp --dport 1: -j DROP")},
    {57, TEXT("-A FORWARD -p tcp --dport 1:2:3 -j DROP")},
    {57, TEXT("-A FORWARD -p tcp -m udp -j DROP")},
    {57, TEXT("-A FORWARD -m tcp -p tcp -j DROP")},
    {57, TEXT("-A FORWARD -p 17 -m udp -j DROP")},
    {57, TEXT("-A FORWARD -p tcp -m tcp -m tcp -j DROP")},
    {57, TEXT("-A FORWARD -p tcp -m state --state NEW -j DROP")},
    {57, TEXT("-A FORWARD -p tcp --sport 9:8 -j DROP -z z")},
    {57, TEXT("-A FORWARD -p tcp --sport 9:8")},
    {57, TEXT(":")},
    {57, TEXT(": FORWARD DROP [0:0]")},
    {57, TEXT(":\"FORWARD\" DROP [0:0]")},
    {57, TEXT(":FORWARD\tDROP [0:0]")},
    {57, TEXT(":FORWARD")},
    {57, TEXT(":FORWARD DROP")},
    {57, TEXT(":FORWARD - [0:0]")},
    {57, TEXT(":FORWARD DROP [0:0] ")},
    {57, TEXT(":FORWARD DROP [0:00]")},
    {57, TEXT(":FORWARD DROP [0]")},
    {57, TEXT(":FORWARD DROP [0:0")},
    {57, TEXT("COMMIT ")},
    {57, TEXT("COMMIT\r")},
    {57, TEXT(" ")},
    {57, TEXT("\0")},
    {57, TEXT("x")},
    {58, TEXT("-A FORWARD -p tcp --sport 9:8 -j DROP")},
    {58, TEXT("-A FORWARD -p udp -m udp --dport 65535:0 -j DROP")},
    {58, TEXT("-A FORWARD -j ACCEPT -p tcp --sport 1:2 --dport 256:255")}};

/* Each of them in the third line, before lines that are turned away too, and behind another table, whose lines count. */
static void check_bad_lines(void) {
    for (size_t k = 0; k < COUNT(bad_lines); k++) {
        const char *what = (const char *)bad_lines[k].line;
        listed(HEAD);
        add(bad_lines[k].line, bad_lines[k].size);
        add(TEXT("\n-A FORWARD -p tcp --dport 2:1 -j DROP\nx\n"));
        stays_out(what, bad_lines[k].number, 3);
        listed(OTHER_TABLE);
        add(HEAD);
        add(bad_lines[k].line, bad_lines[k].size);
        add(TEXT("\nCOMMIT\n"));
        stays_out(what, bad_lines[k].number, 8);
    }
}

/* What is passed over: in the part, and outside. */
#define PASSED TEXT("\n# -A FORWARD -z\n#\n:web - [0:0]\n:INPUT ACCEPT [0:0]\n-A web ! -z\n-A INPUT -j DROP\n-A FORWARDS\n:FORWARDS\n")

static void check_parts(void) {
    listed(OTHER_TABLE);
    add(TEXT("*filter\n"));
    add(PASSED);
    add(TEXT("-A FORWARD -p tcp -j ACCEPT\n:FORWARD ACCEPT [18446744073709551616:7]\n"));
    add(PASSED);
    add(TEXT("-A FORWARD -j DROP\n*mangle\n-A FORWARD -z\n*filter \n*filter\n-A FORWARD -p 1 -j DROP\nCOMMIT\n"));
    add(OTHER_TABLE);
    add(TEXT("no line"));
    comes_in("a whole listing", true, BYTES(PERMIT_TCP, DENY_ALL, 0, 1, 1, BEHIND_PROTOCOL));
    one_line(TEXT(""));
    comes_in("no rule", false, NOTHING);
    listed(TEXT("*filter\n:FORWARD ACCEPT [0:0]\nCOMMIT\n*filter"));
    comes_in("no rule, default permit, and a part that doesn't begin", true, NOTHING);
    one_line(TEXT("-A FORWARD -p tcp -j ACCEPT\n-A FORWARD -j DROP\n-A FORWARD -j ACCEPT -p 6\n-A FORWARD -d 1.1.1.1/0 -j DROP\n"));
    comes_in("rules listed twice", false, BYTES(PERMIT_TCP, DENY_ALL));
}

static void check_ends(void) {
    listed(TEXT(""));
    stays_out("an empty listing", PAGEORIOLE_NOT_READ, 0);
    refused("a listing at no address", pageoriole_from_iptables(NOTHING, NO_PLACE, ANSWER), PAGEORIOLE_NOT_READ, 0);
    listed(OTHER_TABLE);
    stays_out("no part", PAGEORIOLE_NOT_READ, 0);
    add(TEXT("*filter\n:INPUT DROP [0:0]\n-A FORWARD -j DROP\nCOMMIT\n"));
    stays_out("no default", PAGEORIOLE_NOT_READ, 0);
    one_line(TEXT(":FORWARD DROP [0:0]\n"));
    stays_out("two defaults", PAGEORIOLE_NOT_READ, 0);
    one_line(TEXT(""));
    add(HEAD);
    stays_out("a second part that isn't ended", PAGEORIOLE_NOT_READ, 6);
    add(END);
    stays_out("a default in each of two parts", PAGEORIOLE_NOT_READ, 0);
    listed(HEAD);
    stays_out("a part that isn't ended", PAGEORIOLE_NOT_READ, 3);
    add(TEXT("COMMIT"));
    stays_out("an end without its line feed", PAGEORIOLE_NOT_READ, 3);
    add(TEXT("\n"));
    comes_in("the same with it", false, NOTHING);
}

static void add_number(size_t n) {
    if (n >= 10) add_number(n / 10);
    listing[listing_size++] = (uint8_t)('0' + n % 10);
}

/* So many different rules. */
static void add_rules(size_t count) {
    for (size_t k = 0; k < count; k++) {
        add(TEXT("-A FORWARD -s 10.0."));
        add_number(k / 256);
        add(TEXT("."));
        add_number(k % 256);
        add(TEXT(" -j DROP\n"));
    }
}

static void many_rules(size_t count) {
    listed(HEAD);
    add_rules(count);
    add(END);
}

static void check_limits(void) {
    static uint8_t records[512 * 27];
    for (size_t k = 0; k < 512; k++) {
        const uint8_t address[] = {10, 0, (uint8_t)(k / 256), (uint8_t)(k % 256)}, all[] = {DENY_ALL};
        memcpy(records + 27 * k, all, 27);
        memcpy(records + 27 * k + 3, address, 4);
        memcpy(records + 27 * k + 7, address, 4);
    }
    listed(TEXT("*filter\n:FORWARD ACCEPT [0:0]\n"));
    add_rules(512);
    add_rules(512);
    add(END);
    comes_in("512 rules, each twice", true, records, sizeof records);
    expect("longest file of a listing", "its size", made_size, PAGEORIOLE_FROM_IPTABLES);
    told("a listing, no word of room", pageoriole_from_iptables(LISTING, PLACE, NULL, 0), PAGEORIOLE_DONE, NULL, 0);
    many_rules(513);
    stays_out("513 rules", PAGEORIOLE_LENGTH, 0);
    many_rules(1024);
    stays_out("1,024 rules", PAGEORIOLE_LENGTH, 0);
    many_rules(1025);
    stays_out("1,025 rules", PAGEORIOLE_TOO_MANY, 0);
    add(HEAD);
    stays_out("a part that isn't ended before 7", PAGEORIOLE_NOT_READ, 1031);
    add(END);
    stays_out("two defaults before 7", PAGEORIOLE_NOT_READ, 0);
    add(TEXT("*filter\n-A FORWARD -p tcp --dport 1:0 -j DROP\n"));
    stays_out("58 before two defaults", PAGEORIOLE_LOW_ABOVE, 1033);
}

/* ---- what the header adds to the functions ---- */

static struct pageoriole_values three_values(void) {
    static const uint8_t initial[] = {0, 0, 0, 1, 0, 2}, target[] = {0, 2, 0, 0, 0, 1}, keep[] = {0, 0, 0, 1};
    struct pageoriole_values v = {.rules = rules, .rules_size = 3 * 27, .initial = initial, .initial_size = 6, .target = target,
                                  .target_size = 6, .has_keep = true, .keep = keep, .keep_size = 4};
    return v;
}

/* The functions on one struct, in the third example: its plans are taken as the script and judged. */
static void check_struct(void) {
    static uint8_t field_one[64], field_two[64];
    struct pageoriole_values v = three_values();
    passes("struct, check", pageoriole_check_values(&v, ANSWER));
    turned("struct, judge without a script", pageoriole_judge_values(&v, ANSWER), PAGEORIOLE_LENGTH);
    turned("struct, replay without a script", pageoriole_replay_values(&v, PLACE, ANSWER), PAGEORIOLE_LENGTH);
    told("struct, plan one", pageoriole_plan_one_values(&v, field_one, sizeof field_one, ANSWER), PAGEORIOLE_DONE, VALUES(1, 4, 24));
    told("struct, plan two", pageoriole_plan_two_values(&v, field_two, sizeof field_two, ANSWER), PAGEORIOLE_DONE, VALUES(2, 1, 9));
    pageoriole_take_script(&v, field_two, 9);
    told("struct, judge 32", pageoriole_judge_values(&v, ANSWER), PAGEORIOLE_SAFE, NULL, 0);
    told("struct, replay", pageoriole_replay_values(&v, PLACE, ANSWER), PAGEORIOLE_DONE, VALUES(6));
    holds("struct, replay", T3);
    told("struct, write", pageoriole_write_values(&v, PLACE, ANSWER), PAGEORIOLE_DONE, VALUES(124));
    catalogue(3);
    field(2, I3);
    field(3, T3);
    field(4, BYTES(0, 0, 0, 1));
    field(5, BYTES(2, 5, 0, 3, 0, 1));
    holds("struct, write", FILE_MADE);
    pageoriole_take_script(&v, field_one, 24);
    told("struct, judge 31", pageoriole_judge_values(&v, ANSWER), PAGEORIOLE_NOT_FULL, NULL, 0);
    pageoriole_take_script(&v, field_one, 2);
    turned("struct, a field cut off", pageoriole_check_values(&v, ANSWER), PAGEORIOLE_LENGTH);
    v.has_script = false;
    passes("struct, no script", pageoriole_check_values(&v, ANSWER));
    v.keep_size = 3;
    turned("struct, check 4", pageoriole_check_values(&v, ANSWER), PAGEORIOLE_LENGTH);
    v.has_keep = false;
    passes("struct, no keep list", pageoriole_check_values(&v, ANSWER));
}

/* A script that was text, taken as that of the values. */
static void check_struct_text(void) {
    static uint8_t read_field[64];
    struct pageoriole_values v = three_values();
    told("struct, read B", pageoriole_text_script(TEXT("move 3 before 1\n"), 2, FOR_B, read_field, sizeof read_field, ANSWER), PAGEORIOLE_DONE,
         VALUES(9));
    pageoriole_take_script(&v, read_field, 9);
    told("struct, a script that was text", pageoriole_judge_values(&v, ANSWER), PAGEORIOLE_SAFE, NULL, 0);
    wrote("struct, its text for A", pageoriole_script_text(v.script, v.script_size, FOR_A, PLACE, ANSWER), TEXT("mov 3 1\n"));
}

/* The same with a default, which every function on a struct passes on. */
static void check_struct_default(void) {
    static const uint8_t permit[] = {1}, deny[] = {0}, script[] = {2, 5, 0, 3, 0, 1};
    struct pageoriole_values v = three_values();
    v.has_default = true, v.default_value = permit, v.default_size = 1;
    v.has_script = true, v.script = script, v.script_size = sizeof script;
    passes("struct, a default", pageoriole_check_values(&v, ANSWER));
    told("struct, write a default", pageoriole_write_values(&v, PLACE, ANSWER), PAGEORIOLE_DONE, VALUES(128));
    catalogue(3);
    field(2, I3);
    field(3, T3);
    field(6, BYTES(1));
    field(4, BYTES(0, 0, 0, 1));
    field(5, script, sizeof script);
    holds("struct, write a default", FILE_MADE);
    v.default_value = deny;
    turned("struct, check 50", pageoriole_check_values(&v, ANSWER), PAGEORIOLE_DEFAULT);
    turned("struct, write 50", pageoriole_write_values(&v, PLACE, ANSWER), PAGEORIOLE_DEFAULT);
    turned("struct, plan one 50", pageoriole_plan_one_values(&v, PLACE, ANSWER), PAGEORIOLE_DEFAULT);
    turned("struct, plan two 50", pageoriole_plan_two_values(&v, PLACE, ANSWER), PAGEORIOLE_DEFAULT);
    turned("struct, judge 50", pageoriole_judge_values(&v, ANSWER), PAGEORIOLE_DEFAULT);
    turned("struct, replay 50", pageoriole_replay_values(&v, PLACE, ANSWER), PAGEORIOLE_DEFAULT);
    v.default_size = 0;
    turned("struct, default of no byte", pageoriole_check_values(&v, ANSWER), PAGEORIOLE_LENGTH);
    v.has_default = false;
    passes("struct, no default", pageoriole_check_values(&v, ANSWER));
}

/* The rule of ONE_RULE by the names of its bytes. */
static void put_one_rule(uint8_t *rule) {
    pageoriole_put(rule + PAGEORIOLE_RULE_ACTION, PAGEORIOLE_ACTION_WIDTH, PAGEORIOLE_PERMIT);
    pageoriole_put(rule + PAGEORIOLE_RULE_PROTOCOL_LOW, PAGEORIOLE_PROTOCOL_WIDTH, 6);
    pageoriole_put(rule + PAGEORIOLE_RULE_PROTOCOL_HIGH, PAGEORIOLE_PROTOCOL_WIDTH, 6);
    pageoriole_put(rule + PAGEORIOLE_RULE_SOURCE_LOW, PAGEORIOLE_ADDRESS_WIDTH, TEN);
    pageoriole_put(rule + PAGEORIOLE_RULE_SOURCE_HIGH, PAGEORIOLE_ADDRESS_WIDTH, TEN + 255);
    pageoriole_put(rule + PAGEORIOLE_RULE_SOURCE_PORT_LOW, PAGEORIOLE_PORT_WIDTH, 258);
    pageoriole_put(rule + PAGEORIOLE_RULE_SOURCE_PORT_HIGH, PAGEORIOLE_PORT_WIDTH, 515);
    pageoriole_put(rule + PAGEORIOLE_RULE_DESTINATION_LOW, PAGEORIOLE_ADDRESS_WIDTH, TWENTY);
    pageoriole_put(rule + PAGEORIOLE_RULE_DESTINATION_HIGH, PAGEORIOLE_ADDRESS_WIDTH, TWENTY + 1);
    pageoriole_put(rule + PAGEORIOLE_RULE_DESTINATION_PORT_LOW, PAGEORIOLE_PORT_WIDTH, 1027);
    pageoriole_put(rule + PAGEORIOLE_RULE_DESTINATION_PORT_HIGH, PAGEORIOLE_PORT_WIDTH, 1027);
}

/* The second of the flows by the names of its bytes. */
static void put_one_flow(uint8_t *flow) {
    pageoriole_put(flow + PAGEORIOLE_FLOW_PROTOCOL, PAGEORIOLE_PROTOCOL_WIDTH, 6);
    pageoriole_put(flow + PAGEORIOLE_FLOW_SOURCE, PAGEORIOLE_ADDRESS_WIDTH, TEN + 255);
    pageoriole_put(flow + PAGEORIOLE_FLOW_SOURCE_PORT, PAGEORIOLE_PORT_WIDTH, 515);
    pageoriole_put(flow + PAGEORIOLE_FLOW_DESTINATION, PAGEORIOLE_ADDRESS_WIDTH, TWENTY + 1);
    pageoriole_put(flow + PAGEORIOLE_FLOW_DESTINATION_PORT, PAGEORIOLE_PORT_WIDTH, 1027);
}

/* The names of the header against bytes made by hand. */
static void check_names(void) {
    const uint8_t decision[] = {1, 2, 3};
    uint8_t record[13];
    ready();
    put_one_rule(place);
    holds("a rule by names", ONE_RULE);
    ready();
    put_one_flow(place);
    put_record(record, 1);
    holds("a flow by names", record, sizeof record);
    expect("a decision by names", "the action", pageoriole_get(decision + PAGEORIOLE_DECISION_ACTION, PAGEORIOLE_ACTION_WIDTH), 1);
    expect("a decision by names", "the place", pageoriole_get(decision + PAGEORIOLE_DECISION_PLACE, PAGEORIOLE_PLACE_WIDTH), 515);
    expect("values", "of 13", pageoriole_values_of(13), 1);
    expect("values", "of 50", pageoriole_values_of(50), 1);
    expect("values", "of 55", pageoriole_values_of(55), 1);
    expect("values", "of 56", pageoriole_values_of(56), 1);
    expect("values", "of 57", pageoriole_values_of(57), 1);
    expect("values", "of 58", pageoriole_values_of(58), 1);
    expect("values", "of 30", pageoriole_values_of(30), 2);
    expect("values", "of 32", pageoriole_values_of(32), 0);
    expect("turned away", "by 13", pageoriole_turned_away(13), true);
    expect("turned away", "by 50", pageoriole_turned_away(50), true);
    expect("turned away", "by 55", pageoriole_turned_away(55), true);
    expect("turned away", "by 56", pageoriole_turned_away(56), true);
    expect("turned away", "by 57", pageoriole_turned_away(57), true);
    expect("turned away", "by 58", pageoriole_turned_away(58), true);
    expect("turned away", "by 0", pageoriole_turned_away(0), false);
    expect("turned away", "by 20", pageoriole_turned_away(20), false);
    expect("sentences", "of 0", pageoriole_says(0)[0], 'd');
    expect("tags", "of a default", PAGEORIOLE_DEFAULT_TAG, 6);
    expect("makers", "A", PAGEORIOLE_MAKER_A, FOR_A);
    expect("makers", "B", PAGEORIOLE_MAKER_B, FOR_B);
    expect("line", "the number of one that isn't a command", PAGEORIOLE_NO_COMMAND, 55);
    expect("line", "the number of one with too large a number", PAGEORIOLE_BEYOND, 56);
    expect("line", "the number of one that isn't read", PAGEORIOLE_NOT_READ, 57);
    expect("line", "the number of one with a low above its high", PAGEORIOLE_LOW_ABOVE, 58);
    expect("sentences", "of 25 and 26 differing", pageoriole_says(25) != pageoriole_says(26), false);
}

int main(void) {
    make_rules();
    check_read();
    check_read_default();
    check_decide_file();
    check_decide_flows_file();
    check_replay_file();
    check_plan_file();
    check_judge_file();
    check_default_file();
    check_text();
    check_show_text();
    check_check();
    check_check_default();
    check_write();
    check_write_default();
    check_decide();
    check_decide_flows();
    check_replay();
    check_plan();
    check_judge();
    check_plan_default();
    check_script_text();
    check_text_of_refused();
    check_script_text_file();
    check_plan_texts();
    check_text_script();
    check_lines();
    check_longest(FOR_A, TEXT("mov 65535 65535\n"));
    check_longest(FOR_B, TEXT("move 65535 before 65535\n"));
    check_rule_lines();
    check_bad_lines();
    check_parts();
    check_ends();
    check_limits();
    check_struct();
    check_struct_text();
    check_struct_default();
    check_names();
    printf("%u checks, %u wrong\n", checks, wrong);
    return wrong == 0 ? 0 : 1;
}
