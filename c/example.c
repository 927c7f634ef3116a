/* Prints both plans of a deployment file, command by command, and the verdict on its script: example FILE. */
#include <stdio.h>

#include "pageoriole.h"

/* One byte more than the longest file that is accepted, so that a longer one is seen to be longer. */
static uint8_t file[PAGEORIOLE_FILE + 1];
static uint8_t place[PAGEORIOLE_PLAN];
static uint64_t answer[PAGEORIOLE_ANSWER];

typedef uint32_t planner(const uint8_t *, size_t, uint8_t *, size_t, uint64_t *, size_t);

static void print_refusal(uint32_t number) { printf("refused %u at %llu\n", number, (unsigned long long)answer[PAGEORIOLE_REFUSED_AT]); }

static void print_command(size_t step, const uint8_t *command) {
    unsigned one = pageoriole_get(command + PAGEORIOLE_COMMAND_ONE, PAGEORIOLE_LISTED_WIDTH);
    unsigned two = pageoriole_get(command + PAGEORIOLE_COMMAND_TWO, PAGEORIOLE_LISTED_WIDTH);
    switch (command[PAGEORIOLE_COMMAND_CODE]) {
    case PAGEORIOLE_APP: printf("%zu app %u\n", step, one); break;
    case PAGEORIOLE_DEL_RULE: printf("%zu del %u\n", step, one); break;
    case PAGEORIOLE_INS: printf("%zu ins %u %u\n", step, one, two); break;
    case PAGEORIOLE_DEL_PLACE: printf("%zu del %u\n", step, one); break;
    case PAGEORIOLE_MOV: printf("%zu mov %u %u\n", step, one, two); break;
    }
}

static void print_plan(planner *plan, size_t size, size_t initial, size_t target) {
    uint32_t number = plan(file, size, place, sizeof place, answer, PAGEORIOLE_ANSWER);
    if (number != PAGEORIOLE_DONE) {
        print_refusal(number);
        return;
    }
    size_t kept = answer[PAGEORIOLE_PLANNED_KEPT], commands = answer[PAGEORIOLE_PLANNED_COMMANDS];
    const uint8_t *script = place + PAGEORIOLE_HEAD;
    printf("type %u initial %zu target %zu kept %zu commands %zu\n", script[0], initial, target, kept, commands);
    for (size_t k = 0; k < commands; k++) print_command(k + 1, script + PAGEORIOLE_TYPE + PAGEORIOLE_COMMAND * k);
}

static void print_verdict(size_t size) {
    uint32_t number = pageoriole_judge_file(file, size, answer, PAGEORIOLE_ANSWER);
    if (pageoriole_turned_away(number)) {
        print_refusal(number);
        return;
    }
    printf("verdict %u", number);
    for (size_t k = 0; k < pageoriole_values_of(number); k++) printf(" %llu", (unsigned long long)answer[k]);
    printf("\n");
}

int main(int count, char **words) {
    FILE *input = count == 2 ? fopen(words[1], "rb") : NULL;
    if (input == NULL) {
        fprintf(stderr, "usage: example FILE\n");
        return 2;
    }
    size_t size = fread(file, 1, sizeof file, input);
    fclose(input);
    uint32_t number = pageoriole_read(file, size, answer, PAGEORIOLE_ANSWER);
    if (number != PAGEORIOLE_DONE) {
        print_refusal(number);
        return 1;
    }
    size_t initial = answer[PAGEORIOLE_READ_INITIAL_SIZE] / PAGEORIOLE_LISTED_WIDTH;
    size_t target = answer[PAGEORIOLE_READ_TARGET_SIZE] / PAGEORIOLE_LISTED_WIDTH;
    print_plan(pageoriole_plan_one_file, size, initial, target);
    print_plan(pageoriole_plan_two_file, size, initial, target);
    print_verdict(size);
    return 0;
}
