// All due times of the schedules of standard input, a line each, in a day: each is read once, and
// its next time is looked for until the day is over. The words are the rule of the zone and the
// first second of the day. Prints how many there are.
#include "cronsim.h"
#include <inttypes.h>
#include <stdio.h>
#include <stdlib.h>
#include <string.h>

int main(int count, char **words) {
    char line[1024];
    long found = 0;
    if (count != 3) return 2;
    const uint64_t from = strtoull(words[2], NULL, 10);
    while (fgets(line, sizeof line, stdin)) {
        cronsim_cron cron = CRONSIM_CRON_INIT;
        cronsim_fault fault = {0, 0, 0};
        line[strcspn(line, "\n")] = 0;
        if (cronsim_open_rule(&cron, (const uint8_t *)line, strlen(line), (const uint8_t *)words[1],
                              strlen(words[1]), &fault))
            return 1;
        uint64_t due = 0;
        for (uint64_t at = from - 1;
             cronsim_next(&cron, at, &due) == CRONSIM_DONE && due < from + 86400; at = due)
            found++;
        cronsim_close(&cron);
    }
    printf("%ld\n", found);
    return 0;
}
