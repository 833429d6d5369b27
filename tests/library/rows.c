// Runs the cases on standard input through libcronsim, and ends with status 0 where each answer is
// the one stated.
#include "cronsim.h"
#include <stdio.h>
#include <stdlib.h>
#include <string.h>

static long line_number;

static void wrong(const char *what, unsigned long long got) {
    fprintf(stderr, "library: C: case %ld: %s: %llu\n", line_number, what, got);
    exit(1);
}

static void want(const char *what, unsigned long long got, unsigned long long wanted) {
    if (got != wanted) wrong(what, got);
}

// Turns hexadecimal digits into bytes, in their place; tells how many.
static size_t bytes_of(char *digits) {
    size_t count = 0;
    if (strcmp(digits, ".") == 0) return 0;
    for (const char *at = digits; at[0] && at[1]; at += 2) {
        char pair[3] = {at[0], at[1], 0};
        digits[count++] = (char)strtoul(pair, NULL, 16);
    }
    return count;
}

// The times that have to come, each by the call for the next one, and the same looked at from the
// other end.
static void times(cronsim_cron *cron, uint64_t after) {
    uint64_t at = after, due = 0, back = 0, count = 0, first[3], many[4] = {7, 7, 7, 7};
    size_t found = 9;
    cronsim_missed_times missed = {7, 7};
    for (char *word = strtok(NULL, "\t\n"); word; word = strtok(NULL, "\t\n")) {
        if (strcmp(word, "none") == 0) {
            due = 7;
            want("no next time", cronsim_next(cron, at, &due), CRONSIM_NONE);
            want("a due time where there is none", due, 7);
            break;
        }
        bool is_match = false;
        want("next", cronsim_next(cron, at, &due), CRONSIM_DONE);
        want("due", due, strtoull(word, NULL, 10));
        want("matches", cronsim_matches(cron, due, &is_match), CRONSIM_DONE);
        want("a due time matches", is_match, true);
        want("previous", cronsim_previous(cron, at, due, &back), CRONSIM_DONE);
        want("the latest up to a due time", back, due);
        if (count < 3) first[count] = due;
        at = due;
        count++;
    }
    want("next many", cronsim_next_many(cron, after, at, many, 3, &found), CRONSIM_DONE);
    want("how many had room", found, count < 3 ? count : 3);
    for (size_t place = 0; place < found; place++)
        want("one of many", many[place], first[place]);
    want("past the capacity", many[3], 7);
    want("missed", cronsim_missed(cron, after, at, &missed), CRONSIM_DONE);
    want("how many were missed", missed.count, count > 100 ? 101 : count);
    want("the latest missed", missed.latest, count ? at : 0);
}

// A refusal leaves the fault stated, and what was kept before.
static void refused(uint32_t status, cronsim_fault fault, uint64_t field, uint64_t byte,
                    uint64_t cause) {
    want("refused", status, CRONSIM_REFUSED);
    want("field", fault.field, field);
    want("byte", fault.byte, byte);
    want("cause", fault.cause, cause);
}

// The sentence of the fault is this one, if one is asked for.
static void sentence(const char *schedule, size_t length, const cronsim_fault *fault,
                     char *wanted) {
    static uint8_t answer[1024];
    size_t size = 0;
    if (!wanted) return;
    size_t wanted_size = bytes_of(wanted);
    want("sentence",
         cronsim_fault_text((const uint8_t *)schedule, length, fault, answer, sizeof answer, &size),
         CRONSIM_DONE);
    want("length of the sentence", size, wanted_size);
    want("words of the sentence", memcmp(answer, wanted, size), 0);
}

static uint64_t number(void) {
    return strtoull(strtok(NULL, "\t\n"), NULL, 10);
}

static void run(char *line, cronsim_cron *cron) {
    char *schedule = strtok(line, "\t\n"), *rule = strtok(NULL, "\t\n");
    uint64_t after = number();
    strtok(NULL, "\t\n");
    const char *outcome = strtok(NULL, "\t\n");
    size_t schedule_length = bytes_of(schedule), rule_length;
    cronsim_fault fault = {0, 0, 0};
    uint32_t status;
    if (strcmp(rule, "-") == 0) {
        status = cronsim_open(cron, (const uint8_t *)schedule, schedule_length, &fault);
    } else {
        rule_length = bytes_of(rule);
        status = cronsim_open_rule(cron, (const uint8_t *)schedule, schedule_length,
                                   (const uint8_t *)rule, rule_length, &fault);
    }
    if (strcmp(outcome, "times") == 0) {
        want("opened", status, CRONSIM_DONE);
        times(cron, after);
    } else if (strcmp(outcome, "fault") == 0) {
        uint64_t field = number(), byte = number();
        refused(status, fault, field, byte, number());
        sentence(schedule, schedule_length, &fault, strtok(NULL, "\t\n"));
    } else {
        refused(status, fault, 6, 0, CRONSIM_NO_ZONE);
    }
}

int main(void) {
    static char line[1 << 20];
    cronsim_cron cron = CRONSIM_CRON_INIT;
    while (fgets(line, sizeof line, stdin)) {
        line_number++;
        run(line, &cron);
    }
    cronsim_close(&cron);
    printf("library: C: %ld rows\n", line_number);
    return line_number ? 0 : 1;
}
