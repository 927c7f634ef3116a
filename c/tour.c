/* A tour of the library, by the header's names alone: makes three rules and two policies, decides flows, also by the default, plans by both
 * languages, judges both plans and a script that is wrong, reads one maker's console text and writes it for the other, brings in saved iptables
 * rules, and prints a sentence for each answer. */
#include <stdio.h>

#include "pageoriole.h"

/* Rules by their numbers, how many there are, and how many a policy names. */
enum { MAIL, WEB, REST, CATALOGUE };
enum { LISTED = 2 };
enum { TCP = 6, UDP = 17, MAIL_PORT = 25, WEB_PORT = 443 };

static uint8_t rules[CATALOGUE * PAGEORIOLE_RULE];
static uint8_t initial[LISTED * PAGEORIOLE_LISTED_WIDTH], target[LISTED * PAGEORIOLE_LISTED_WIDTH];
static uint8_t plan[PAGEORIOLE_PLAN];
static uint64_t answer[PAGEORIOLE_ANSWER];

/* The number's sentence, and the values that belong to it. */
static void say(const char *what, uint32_t number) {
    printf("%s: %u, %s", what, number, pageoriole_says(number));
    for (size_t k = 0; k < pageoriole_values_of(number); k++) printf("%s %llu", k == 0 ? ":" : "", (unsigned long long)answer[k]);
    printf("\n");
}

/* All flows of TCP, with this action, to these destination ports. */
static void put_rule(size_t n, uint8_t action, uint32_t low, uint32_t high) {
    uint8_t *rule = rules + n * PAGEORIOLE_RULE;
    rule[PAGEORIOLE_RULE_ACTION] = action;
    pageoriole_put(rule + PAGEORIOLE_RULE_PROTOCOL_LOW, PAGEORIOLE_PROTOCOL_WIDTH, TCP);
    pageoriole_put(rule + PAGEORIOLE_RULE_PROTOCOL_HIGH, PAGEORIOLE_PROTOCOL_WIDTH, TCP);
    pageoriole_put(rule + PAGEORIOLE_RULE_SOURCE_LOW, PAGEORIOLE_ADDRESS_WIDTH, 0);
    pageoriole_put(rule + PAGEORIOLE_RULE_SOURCE_HIGH, PAGEORIOLE_ADDRESS_WIDTH, UINT32_MAX);
    pageoriole_put(rule + PAGEORIOLE_RULE_SOURCE_PORT_LOW, PAGEORIOLE_PORT_WIDTH, 0);
    pageoriole_put(rule + PAGEORIOLE_RULE_SOURCE_PORT_HIGH, PAGEORIOLE_PORT_WIDTH, UINT16_MAX);
    pageoriole_put(rule + PAGEORIOLE_RULE_DESTINATION_LOW, PAGEORIOLE_ADDRESS_WIDTH, 0);
    pageoriole_put(rule + PAGEORIOLE_RULE_DESTINATION_HIGH, PAGEORIOLE_ADDRESS_WIDTH, UINT32_MAX);
    pageoriole_put(rule + PAGEORIOLE_RULE_DESTINATION_PORT_LOW, PAGEORIOLE_PORT_WIDTH, low);
    pageoriole_put(rule + PAGEORIOLE_RULE_DESTINATION_PORT_HIGH, PAGEORIOLE_PORT_WIDTH, high);
}

static void put_list(uint8_t *list, const uint32_t *numbers) {
    for (size_t k = 0; k < LISTED; k++) pageoriole_put(list + k * PAGEORIOLE_LISTED_WIDTH, PAGEORIOLE_LISTED_WIDTH, numbers[k]);
}

/* All but mail is permitted; it shall be all but the web. */
static struct pageoriole_values make_values(void) {
    static const uint32_t before[LISTED] = {MAIL, REST}, after[LISTED] = {WEB, REST};
    struct pageoriole_values values = {0};
    put_rule(MAIL, PAGEORIOLE_DENY, MAIL_PORT, MAIL_PORT);
    put_rule(WEB, PAGEORIOLE_DENY, WEB_PORT, WEB_PORT);
    put_rule(REST, PAGEORIOLE_PERMIT, 0, UINT16_MAX);
    put_list(initial, before);
    put_list(target, after);
    values.rules = rules, values.rules_size = sizeof rules;
    values.initial = initial, values.initial_size = sizeof initial;
    values.target = target, values.target_size = sizeof target;
    return values;
}

static void put_flow(uint8_t *flow, uint32_t port) {
    pageoriole_put(flow + PAGEORIOLE_FLOW_PROTOCOL, PAGEORIOLE_PROTOCOL_WIDTH, TCP);
    pageoriole_put(flow + PAGEORIOLE_FLOW_SOURCE, PAGEORIOLE_ADDRESS_WIDTH, 0);
    pageoriole_put(flow + PAGEORIOLE_FLOW_SOURCE_PORT, PAGEORIOLE_PORT_WIDTH, 0);
    pageoriole_put(flow + PAGEORIOLE_FLOW_DESTINATION, PAGEORIOLE_ADDRESS_WIDTH, 0);
    pageoriole_put(flow + PAGEORIOLE_FLOW_DESTINATION_PORT, PAGEORIOLE_PORT_WIDTH, port);
}

/* Two flows, to mail and to the web, by one policy. */
static void decide(const char *what, const uint8_t *policy, size_t policy_size) {
    static const uint32_t ports[] = {MAIL_PORT, WEB_PORT};
    enum { FLOWS = sizeof ports / sizeof *ports };
    static uint8_t flows[FLOWS * PAGEORIOLE_FLOW], decisions[FLOWS * PAGEORIOLE_DECISION];
    for (size_t k = 0; k < FLOWS; k++) put_flow(flows + k * PAGEORIOLE_FLOW, ports[k]);
    say(what, pageoriole_decide_flows(rules, sizeof rules, policy, policy_size, false, NULL, 0, flows, sizeof flows, decisions, sizeof decisions,
                                      answer, PAGEORIOLE_ANSWER));
    for (size_t k = 0; k < FLOWS; k++) {
        const uint8_t *decision = decisions + k * PAGEORIOLE_DECISION;
        printf("  port %u: %s at place %u\n", ports[k], decision[PAGEORIOLE_DECISION_ACTION] == PAGEORIOLE_PERMIT ? "permit" : "deny",
               pageoriole_get(decision + PAGEORIOLE_DECISION_PLACE, PAGEORIOLE_PLACE_WIDTH));
    }
}

static void print_decision(void) {
    printf("  %s at place %llu\n", answer[PAGEORIOLE_DECIDED_ACTION] == PAGEORIOLE_PERMIT ? "permit" : "deny",
           (unsigned long long)answer[PAGEORIOLE_DECIDED_PLACE]);
}

/* A flow that no rule of the target matches: the default decides it, at place 0. An absent one denies. */
static void decide_by_default(const char *what, bool has_default) {
    static const uint8_t permit[PAGEORIOLE_ACTION_WIDTH] = {PAGEORIOLE_PERMIT};
    say(what, pageoriole_decide(rules, sizeof rules, target, sizeof target, has_default, permit, sizeof permit, UDP, 0, 0, 0, WEB_PORT, answer,
                                PAGEORIOLE_ANSWER));
    print_decision();
}

typedef uint32_t planner(const struct pageoriole_values *, uint8_t *, size_t, uint64_t *, size_t);

/* Plans, takes the plan as the script, judges it. */
static void plan_and_judge(const char *what, planner *planned_by, struct pageoriole_values *values) {
    uint32_t number = planned_by(values, plan, sizeof plan, answer, PAGEORIOLE_ANSWER);
    say(what, number);
    if (number != PAGEORIOLE_DONE) return;
    printf("  %llu rules kept, %llu commands\n", (unsigned long long)answer[PAGEORIOLE_PLANNED_KEPT],
           (unsigned long long)answer[PAGEORIOLE_PLANNED_COMMANDS]);
    pageoriole_take_script(values, plan, answer[PAGEORIOLE_PLANNED_BYTES]);
    say("  judged", pageoriole_judge_values(values, answer, PAGEORIOLE_ANSWER));
}

/* A script that appends a rule that is there. */
static void judge_wrong_script(struct pageoriole_values *values) {
    static uint8_t script[PAGEORIOLE_TYPE + PAGEORIOLE_COMMAND] = {PAGEORIOLE_APPEND_DELETE};
    uint8_t *command = script + PAGEORIOLE_TYPE;
    command[PAGEORIOLE_COMMAND_CODE] = PAGEORIOLE_APP;
    pageoriole_put(command + PAGEORIOLE_COMMAND_ONE, PAGEORIOLE_LISTED_WIDTH, REST);
    values->has_script = true, values->script = script, values->script_size = sizeof script;
    say("a script that appends a rule that is there", pageoriole_judge_values(values, answer, PAGEORIOLE_ANSWER));
}

/* A line of maker B, read as a script and written for maker A; then the same line, read as if it were maker A's. */
static void translate(struct pageoriole_values *values) {
    static const char line[] = "move 1 before 3\n";
    static uint8_t field[PAGEORIOLE_SCRIPT_FIELD], text[PAGEORIOLE_TEXT_A];
    const uint8_t *bytes = (const uint8_t *)line;
    size_t size = sizeof line - 1;
    uint8_t type = PAGEORIOLE_INSERT_DELETE_MOVE;
    uint32_t number = pageoriole_text_script(bytes, size, type, PAGEORIOLE_MAKER_B, field, sizeof field, answer, PAGEORIOLE_ANSWER);
    say("text of maker B, read", number);
    if (number != PAGEORIOLE_DONE) return;
    pageoriole_take_script(values, field, answer[PAGEORIOLE_WRITTEN_BYTES]);
    say("written for maker A",
        pageoriole_script_text(values->script, values->script_size, PAGEORIOLE_MAKER_A, text, sizeof text, answer, PAGEORIOLE_ANSWER));
    printf("  B: %s  A: %.*s", line, (int)answer[PAGEORIOLE_WRITTEN_BYTES], (const char *)text);
    say("read as maker A's", pageoriole_text_script(bytes, size, type, PAGEORIOLE_MAKER_A, field, sizeof field, answer, PAGEORIOLE_ANSWER));
}

/* A listing with one rule, which permits the web; a flow decided by the file made of it. Then a listing whose third line has an option that isn't
 * read. */
static void bring_in(void) {
    static const char saved[] = "*filter\n:FORWARD DROP [0:0]\n-A FORWARD -p tcp -m tcp --dport 443 -j ACCEPT\nCOMMIT\n";
    static const char other[] = "*filter\n:FORWARD DROP [0:0]\n-A FORWARD -i eth0 -j ACCEPT\nCOMMIT\n";
    static uint8_t file[PAGEORIOLE_FROM_IPTABLES];
    uint32_t number = pageoriole_from_iptables((const uint8_t *)saved, sizeof saved - 1, file, sizeof file, answer, PAGEORIOLE_ANSWER);
    say("saved iptables rules, brought in", number);
    if (number != PAGEORIOLE_DONE) return;
    say("a flow by their file",
        pageoriole_decide_file(file, answer[PAGEORIOLE_WRITTEN_BYTES], false, TCP, 0, 0, 0, WEB_PORT, answer, PAGEORIOLE_ANSWER));
    print_decision();
    say("rules with another option",
        pageoriole_from_iptables((const uint8_t *)other, sizeof other - 1, file, sizeof file, answer, PAGEORIOLE_ANSWER));
}

int main(void) {
    struct pageoriole_values values = make_values();
    printf("pageoriole %s\n", PAGEORIOLE_VERSION);
    say("the values", pageoriole_check_values(&values, answer, PAGEORIOLE_ANSWER));
    decide("flows by the initial policy", initial, sizeof initial);
    decide("flows by the target", target, sizeof target);
    decide_by_default("a flow that no rule matches", false);
    decide_by_default("the same under default permit", true);
    plan_and_judge("plan by append and delete", pageoriole_plan_one_values, &values);
    plan_and_judge("plan by insert, delete and move", pageoriole_plan_two_values, &values);
    judge_wrong_script(&values);
    translate(&values);
    bring_in();
    say("no room for a plan", pageoriole_plan_two_values(&values, plan, 0, answer, PAGEORIOLE_ANSWER));
    return 0;
}
