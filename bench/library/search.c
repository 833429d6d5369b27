// How many due times a second libcronsim finds, of a schedule that is read once: the words are a
// schedule, the rule of its zone, how many searches are made, and, if they are made a thousand at a
// time, `many`.
#define _POSIX_C_SOURCE 199309L
#include "cronsim.h"
#include <stdio.h>
#include <stdlib.h>
#include <string.h>
#include <time.h>

static double seconds(void) {
    struct timespec now;
    clock_gettime(CLOCK_PROCESS_CPUTIME_ID, &now);
    return (double)now.tv_sec + (double)now.tv_nsec / 1e9;
}

static const uint64_t start = 1704067200, days = 259200000;

// Each time by a call of its own.
static void one_by_one(cronsim_cron *cron, long searches) {
    uint64_t at = start, due = 0;
    for (long made = 0; made < searches; made++)
        at = cronsim_next(cron, at, &due) == CRONSIM_DONE ? due : start;
}

// A thousand times by a call; one that finds none counts as one search.
static void by_thousands(cronsim_cron *cron, long searches) {
    static uint64_t times[1000];
    uint64_t at = start;
    size_t found = 0;
    for (long made = 0; made < searches; made += found ? (long)found : 1) {
        if (cronsim_next_many(cron, at, at + days, times, 1000, &found) != CRONSIM_DONE) found = 0;
        at = found ? times[found - 1] : start;
    }
}

int main(int count, char **words) {
    cronsim_cron cron = CRONSIM_CRON_INIT;
    cronsim_fault fault = {0, 0, 0};
    if (count != 4 && (count != 5 || strcmp(words[4], "many"))) return 2;
    const uint8_t *schedule = (const uint8_t *)words[1], *rule = (const uint8_t *)words[2];
    if (cronsim_open_rule(&cron, schedule, strlen(words[1]), rule, strlen(words[2]), &fault) !=
        CRONSIM_DONE)
        return 1;
    long searches = atol(words[3]);
    double began = seconds();
    (count == 5 ? by_thousands : one_by_one)(&cron, searches);
    double took = seconds() - began;
    cronsim_close(&cron);
    printf("%.0f\n", (double)searches / (took > 1e-9 ? took : 1e-9));
    return 0;
}
