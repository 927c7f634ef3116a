/* How much stack each function touches: every call runs on a stack of its own, painted before it; the deepest byte that lost its paint is the
 * mark. The inputs are the largest that are accepted: 1,024 rules, policies of 512 rules that have none in common, or the same in reverse, or
 * equal with a keep list of 512, a default, scripts of 2,048 commands that run through, and their texts for both makers; and a listing of 512
 * different rules with every option, each listed again and again. Prints the mark in bytes for each function, and fails where one is above what
 * the header says. */
#include <stdio.h>
#include <string.h>

#include "pageoriole.h"

enum {
    STACK = 1024 * 1024,
    PAINT = 0xa5,
    LIST = PAGEORIOLE_LISTED_WIDTH * PAGEORIOLE_LISTED,
    SCRIPT = PAGEORIOLE_TYPE + PAGEORIOLE_COMMAND * PAGEORIOLE_COMMANDS,
    TIMES = 4,  /* how often each rule is listed */
    LINE = 128, /* bytes: no line of the listing is longer */
    FLOWS = 1000 /* as many as are decided in one call here; the stack doesn't depend on it */
};

static _Alignas(16) uint8_t stack[STACK];
static uint8_t rules[PAGEORIOLE_RULES * PAGEORIOLE_RULE];
static uint8_t flows[FLOWS * PAGEORIOLE_FLOW];
static uint8_t place[PAGEORIOLE_SHOW_TEXT];
static uint8_t listing[(TIMES * PAGEORIOLE_LISTED + 3) * LINE];
static size_t listing_size;
static uint64_t answer[PAGEORIOLE_ANSWER];
static const uint8_t permit[PAGEORIOLE_ACTION_WIDTH] = {PAGEORIOLE_PERMIT};

#define DEFAULT true, permit, sizeof permit

/* One input: policies, keep list and script as field values, the file of them, and the script as text. */
struct input {
    uint8_t initial[LIST], target[LIST], keep[LIST], script[SCRIPT], file[PAGEORIOLE_FILE], text_a[PAGEORIOLE_TEXT_A], text_b[PAGEORIOLE_TEXT_B];
    bool has_keep;
    size_t keep_size, file_size, text_a_size, text_b_size;
};

static struct input disjoint, reversed, same;
static const struct input *now;

static void put_number(uint8_t *list, size_t k, size_t n) {
    pageoriole_put(list + PAGEORIOLE_LISTED_WIDTH * k, PAGEORIOLE_LISTED_WIDTH, (uint32_t)n);
}

static void put_command(uint8_t *script, size_t k, uint8_t code, size_t one, size_t two) {
    uint8_t *command = script + PAGEORIOLE_TYPE + PAGEORIOLE_COMMAND * k;
    command[PAGEORIOLE_COMMAND_CODE] = code;
    put_number(command + PAGEORIOLE_COMMAND_ONE, 0, one);
    put_number(command + PAGEORIOLE_COMMAND_TWO, 0, two);
}

/* Rules that differ in the low of their destination port alone, so that two are compared to the end. */
static void make_rules(void) {
    for (size_t k = 0; k < PAGEORIOLE_RULES; k++) {
        uint8_t *rule = rules + k * PAGEORIOLE_RULE;
        memset(rule, 0, PAGEORIOLE_RULE);
        rule[PAGEORIOLE_RULE_ACTION] = PAGEORIOLE_PERMIT;
        memset(rule + PAGEORIOLE_RULE_DESTINATION_PORT_HIGH, 255, PAGEORIOLE_PORT_WIDTH);
        pageoriole_put(rule + PAGEORIOLE_RULE_DESTINATION_PORT_LOW, PAGEORIOLE_PORT_WIDTH, (uint32_t)k);
    }
}

static void make_file(struct input *in) {
    pageoriole_write(rules, sizeof rules, in->initial, LIST, in->target, LIST, DEFAULT, in->has_keep, in->keep, in->keep_size, true, in->script,
                     SCRIPT, in->file, sizeof in->file, answer, PAGEORIOLE_ANSWER);
    in->file_size = answer[PAGEORIOLE_WRITTEN_BYTES];
}

static void make_texts(struct input *in) {
    pageoriole_script_text(in->script, SCRIPT, PAGEORIOLE_MAKER_A, in->text_a, sizeof in->text_a, answer, PAGEORIOLE_ANSWER);
    in->text_a_size = answer[PAGEORIOLE_WRITTEN_BYTES];
    pageoriole_script_text(in->script, SCRIPT, PAGEORIOLE_MAKER_B, in->text_b, sizeof in->text_b, answer, PAGEORIOLE_ANSWER);
    in->text_b_size = answer[PAGEORIOLE_WRITTEN_BYTES];
}

static void add(const char *text) {
    while (*text != 0) listing[listing_size++] = (uint8_t)*text++;
}

static void add_number(size_t n) {
    if (n >= 10) add_number(n / 10);
    listing[listing_size++] = (uint8_t)('0' + n % 10);
}

static void make_listing(void) {
    add("*filter\n:FORWARD ACCEPT [0:0]\n");
    for (size_t k = 0; k < TIMES * PAGEORIOLE_LISTED; k++) {
        add("-A FORWARD -s 10.0.0.0/8 -d 192.168.0.0/16 -p tcp -m tcp --sport 1024:65535 --dport ");
        add_number(k % PAGEORIOLE_LISTED);
        add(" -j ACCEPT\n");
    }
    add("COMMIT\n");
}

/* Deletes the initial rules, appends the target's, and then its last one again and again: ordered, not full. */
static void disjoint_command(size_t k) {
    if (k < PAGEORIOLE_LISTED)
        put_command(disjoint.script, k, PAGEORIOLE_DEL_RULE, PAGEORIOLE_LISTED - 1 - k, 0);
    else if (k < PAGEORIOLE_RULES)
        put_command(disjoint.script, k, PAGEORIOLE_APP, k, 0);
    else
        put_command(disjoint.script, k, k % 2 ? PAGEORIOLE_APP : PAGEORIOLE_DEL_RULE, PAGEORIOLE_RULES - 1, 0);
}

/* Moves the last rule to the first place, to the second and so on, then nothing: safe. */
static void reversed_command(size_t k) {
    size_t to = k + 1 < PAGEORIOLE_LISTED ? k + 1 : PAGEORIOLE_LISTED;
    put_command(reversed.script, k, PAGEORIOLE_MOV, PAGEORIOLE_LISTED, to);
}

/* Inserts the other rules in front and deletes them, then moves the first rule to the end: a list of 1,024 rules, and lists that aren't ordered. */
static void same_command(size_t k) {
    if (k < PAGEORIOLE_LISTED)
        put_command(same.script, k, PAGEORIOLE_INS, 1, PAGEORIOLE_LISTED + k);
    else if (k < PAGEORIOLE_RULES)
        put_command(same.script, k, PAGEORIOLE_DEL_PLACE, 1, 0);
    else
        put_command(same.script, k, PAGEORIOLE_MOV, 1, PAGEORIOLE_LISTED);
}

static void make_inputs(void) {
    for (size_t k = 0; k < PAGEORIOLE_LISTED; k++) {
        put_number(disjoint.initial, k, k);
        put_number(disjoint.target, k, PAGEORIOLE_LISTED + k);
        put_number(reversed.initial, k, k);
        put_number(reversed.target, k, PAGEORIOLE_LISTED - 1 - k);
        put_number(same.initial, k, k);
        put_number(same.target, k, k);
        put_number(same.keep, k, k);
    }
    reversed.has_keep = same.has_keep = true;
    same.keep_size = LIST;
    disjoint.script[0] = PAGEORIOLE_APPEND_DELETE;
    reversed.script[0] = same.script[0] = PAGEORIOLE_INSERT_DELETE_MOVE;
    for (size_t k = 0; k < PAGEORIOLE_COMMANDS; k++) {
        disjoint_command(k);
        reversed_command(k);
        same_command(k);
    }
    make_file(&disjoint);
    make_file(&reversed);
    make_file(&same);
    make_texts(&disjoint);
    make_texts(&reversed);
    make_texts(&same);
    make_listing();
}

#define ANSWER answer, (size_t)PAGEORIOLE_ANSWER
#define FILE_NOW now->file, now->file_size
#define RULES rules, sizeof rules
#define VALUES RULES, now->initial, (size_t)LIST, now->target, (size_t)LIST, DEFAULT, now->has_keep, now->keep, now->keep_size
#define SCRIPT_NOW now->script, (size_t)SCRIPT
#define PLACE place, sizeof place
#define FLOW 17, 0, 0, 0, 0
#define FLOWS_MADE flows, sizeof flows

static uint32_t number;

static void read(void) { number = pageoriole_read(FILE_NOW, ANSWER); }
static void read_to_judge(void) { number = pageoriole_read_to_judge(FILE_NOW, ANSWER); }
static void check(void) { number = pageoriole_check(VALUES, true, SCRIPT_NOW, ANSWER); }
static void write(void) { number = pageoriole_write(VALUES, true, SCRIPT_NOW, PLACE, ANSWER); }
static void decide_file(void) { number = pageoriole_decide_file(FILE_NOW, true, FLOW, ANSWER); }
static void decide(void) { number = pageoriole_decide(RULES, now->target, LIST, DEFAULT, FLOW, ANSWER); }
static void flows_file(void) { number = pageoriole_decide_flows_file(FILE_NOW, true, FLOWS_MADE, PLACE, ANSWER); }
static void flows_lists(void) { number = pageoriole_decide_flows(RULES, now->target, LIST, DEFAULT, FLOWS_MADE, PLACE, ANSWER); }
static void replay_file(void) { number = pageoriole_replay_file(FILE_NOW, PLACE, ANSWER); }
static void replay(void) { number = pageoriole_replay(RULES, now->initial, LIST, DEFAULT, SCRIPT_NOW, PLACE, ANSWER); }
static void plan_one_file(void) { number = pageoriole_plan_one_file(FILE_NOW, PLACE, ANSWER); }
static void plan_two_file(void) { number = pageoriole_plan_two_file(FILE_NOW, PLACE, ANSWER); }
static void plan_one(void) { number = pageoriole_plan_one(VALUES, true, SCRIPT_NOW, PLACE, ANSWER); }
static void plan_two(void) { number = pageoriole_plan_two(VALUES, true, SCRIPT_NOW, PLACE, ANSWER); }
static void judge_file(void) { number = pageoriole_judge_file(FILE_NOW, ANSWER); }
static void plan_text(void) { number = pageoriole_plan_text(FILE_NOW, PLACE, ANSWER); }
static void judge_text(void) { number = pageoriole_judge_text(FILE_NOW, PLACE, ANSWER); }
static void show_text(void) { number = pageoriole_show_text(FILE_NOW, PLACE, ANSWER); }
static void judge(void) { number = pageoriole_judge(VALUES, SCRIPT_NOW, ANSWER); }

/* A call for each maker: the mark is that of the deeper one. The second is made only if the first is accepted. */
#define BOTH_MAKERS(call_a, call_b)                                                                                                            \
    do {                                                                                                                                       \
        number = call_a;                                                                                                                       \
        if (number == PAGEORIOLE_DONE) number = call_b;                                                                                        \
    } while (false)
#define TO_A PAGEORIOLE_MAKER_A, PLACE, ANSWER
#define TO_B PAGEORIOLE_MAKER_B, PLACE, ANSWER
#define TEXT_A now->text_a, now->text_a_size
#define TEXT_B now->text_b, now->text_b_size

static void script_text(void) { BOTH_MAKERS(pageoriole_script_text(SCRIPT_NOW, TO_A), pageoriole_script_text(SCRIPT_NOW, TO_B)); }
static void script_text_file(void) { BOTH_MAKERS(pageoriole_script_text_file(FILE_NOW, TO_A), pageoriole_script_text_file(FILE_NOW, TO_B)); }
static void plan_one_text(void) { BOTH_MAKERS(pageoriole_plan_one_text(FILE_NOW, TO_A), pageoriole_plan_one_text(FILE_NOW, TO_B)); }
static void plan_two_text(void) { BOTH_MAKERS(pageoriole_plan_two_text(FILE_NOW, TO_A), pageoriole_plan_two_text(FILE_NOW, TO_B)); }
static void text_script(void) {
    BOTH_MAKERS(pageoriole_text_script(TEXT_A, now->script[0], TO_A), pageoriole_text_script(TEXT_B, now->script[0], TO_B));
}

/* The same listing for every input. */
static void from_iptables(void) { number = pageoriole_from_iptables(listing, listing_size, PLACE, ANSWER); }

/* Calls a function with the stack pointer at the end of the painted stack. */
static void call_there(void (*call)(void)) {
    __asm__ volatile("movq %%rsp, %%rbx\n\tmovq %0, %%rsp\n\tcall *%1\n\tmovq %%rbx, %%rsp"
                     :
                     : "r"(stack + STACK), "r"(call)
                     : "rbx", "rax", "rcx", "rdx", "rsi", "rdi", "r8", "r9", "r10", "r11", "memory", "cc", "xmm0", "xmm1", "xmm2", "xmm3", "xmm4",
                       "xmm5", "xmm6", "xmm7", "xmm8", "xmm9", "xmm10", "xmm11", "xmm12", "xmm13", "xmm14", "xmm15");
}

static size_t mark(void (*call)(void)) {
    size_t k = 0;
    memset(stack, PAINT, sizeof stack);
    call_there(call);
    while (k < STACK && stack[k] == PAINT) k++;
    return STACK - k;
}

int main(void) {
    static const struct {
        const char *name;
        void (*call)(void);
        size_t most;
    } calls[] = {{"pageoriole_read", read, PAGEORIOLE_STACK},
                 {"pageoriole_read_to_judge", read_to_judge, PAGEORIOLE_STACK},
                 {"pageoriole_check", check, PAGEORIOLE_STACK},
                 {"pageoriole_write", write, PAGEORIOLE_STACK},
                 {"pageoriole_decide_file", decide_file, PAGEORIOLE_STACK},
                 {"pageoriole_decide", decide, PAGEORIOLE_STACK},
                 {"pageoriole_decide_flows_file", flows_file, PAGEORIOLE_STACK},
                 {"pageoriole_decide_flows", flows_lists, PAGEORIOLE_STACK},
                 {"pageoriole_replay_file", replay_file, PAGEORIOLE_STACK},
                 {"pageoriole_replay", replay, PAGEORIOLE_STACK},
                 {"pageoriole_plan_one_file", plan_one_file, PAGEORIOLE_STACK},
                 {"pageoriole_plan_two_file", plan_two_file, PAGEORIOLE_STACK},
                 {"pageoriole_plan_one", plan_one, PAGEORIOLE_STACK},
                 {"pageoriole_plan_two", plan_two, PAGEORIOLE_STACK},
                 {"pageoriole_judge_file", judge_file, PAGEORIOLE_STACK},
                 {"pageoriole_judge", judge, PAGEORIOLE_STACK},
                 {"pageoriole_plan_text", plan_text, PAGEORIOLE_STACK_TEXT},
                 {"pageoriole_judge_text", judge_text, PAGEORIOLE_STACK},
                 {"pageoriole_show_text", show_text, PAGEORIOLE_STACK},
                 {"pageoriole_script_text", script_text, PAGEORIOLE_STACK},
                 {"pageoriole_script_text_file", script_text_file, PAGEORIOLE_STACK},
                 {"pageoriole_plan_one_text", plan_one_text, PAGEORIOLE_STACK},
                 {"pageoriole_plan_two_text", plan_two_text, PAGEORIOLE_STACK_TEXT},
                 {"pageoriole_text_script", text_script, PAGEORIOLE_STACK},
                 {"pageoriole_from_iptables", from_iptables, PAGEORIOLE_STACK}};
    const struct input *inputs[] = {&disjoint, &reversed, &same};
    bool accepted = true, within = true;
    make_rules();
    make_inputs();
    for (size_t k = 0; k < sizeof calls / sizeof *calls; k++) {
        size_t deepest = 0;
        for (size_t i = 0; i < sizeof inputs / sizeof *inputs; i++) {
            now = inputs[i];
            size_t here = mark(calls[k].call);
            accepted = accepted && (number == PAGEORIOLE_DONE || number > PAGEORIOLE_ELSEWHERE) && !pageoriole_turned_away(number);
            if (here > deepest) deepest = here;
        }
        printf("%-28s %6zu bytes of %zu\n", calls[k].name, deepest, calls[k].most);
        within = within && deepest <= calls[k].most;
    }
    if (!accepted) printf("an input was turned away\n");
    if (!within) printf("a function touches more stack than the header says\n");
    return accepted && within && same.file_size == PAGEORIOLE_FILE ? 0 : 1;
}
