// Calls libcronsim as no caller should, and with each request for memory refused in turn. Linked
// with -Wl,--wrap=malloc and -Wl,--wrap=realloc, so that the requests of the library come here.
#include "cronsim.h"
#include <pthread.h>
#include <stdatomic.h>
#include <stdio.h>
#include <stdlib.h>
#include <string.h>

void *__real_malloc(size_t size);
void *__real_realloc(void *block, size_t size);

static _Atomic long asked, refused_one;

static bool is_refused(void) {
    return ++asked == refused_one;
}

void *__wrap_malloc(size_t size) {
    return is_refused() ? NULL : __real_malloc(size);
}

void *__wrap_realloc(void *block, size_t size) {
    return is_refused() ? NULL : __real_realloc(block, size);
}

static void want(const char *what, unsigned long long got, unsigned long long wanted) {
    if (got != wanted) {
        fprintf(stderr, "library: hostile: %s: %llu, not %llu\n", what, got, wanted);
        exit(1);
    }
}

static const uint8_t *text(const char *bytes) {
    return (const uint8_t *)bytes;
}

static void want_fault(const char *what, uint32_t status, cronsim_fault fault, uint64_t field,
                       uint64_t cause) {
    want(what, status, CRONSIM_REFUSED);
    want(what, fault.field, field);
    want(what, fault.cause, cause);
    want(what, fault.byte, 0);
}

// A handle with nothing behind it answers so, leaves what a call would write to, and may be closed.
static void want_empty(cronsim_cron *cron) {
    cronsim_missed_times missed = {7, 8};
    uint64_t due = 9;
    size_t found = 9;
    bool is_match = true;
    want("next, closed", cronsim_next(cron, 0, &due), CRONSIM_CLOSED);
    want("next many, closed", cronsim_next_many(cron, 0, 60, &due, 1, &found), CRONSIM_CLOSED);
    want("previous, closed", cronsim_previous(cron, 0, 60, &due), CRONSIM_CLOSED);
    want("missed, closed", cronsim_missed(cron, 0, 60, &missed), CRONSIM_CLOSED);
    want("matches, closed", cronsim_matches(cron, 0, &is_match), CRONSIM_CLOSED);
    want("next past the end, closed", cronsim_next(cron, UINT64_MAX, &due), CRONSIM_CLOSED);
    want("nothing written", due == 9 && is_match && missed.count == 7 && missed.latest == 8, 1);
    want("nothing counted", found, 9);
    cronsim_close(cron);
    cronsim_close(cron);
}

// Handles that were never opened, in each way to set their bytes to zero; one that was refused; and
// one that was closed, which opens again.
static void closed(void) {
    static cronsim_cron fixed;
    cronsim_cron made = CRONSIM_CRON_INIT, zero = {0}, set;
    cronsim_cron *asked_for = calloc(1, sizeof *asked_for);
    cronsim_fault fault = {0, 0, 0};
    uint64_t due = 0;
    memset(&set, 0, sizeof set);
    cronsim_cron *all[] = {&fixed, &made, &zero, &set, asked_for};
    for (size_t i = 0; i < sizeof all / sizeof *all; i++) {
        want_empty(all[i]);
        want_empty(all[i]);
        want_fault("refused", cronsim_open(all[i], text(" "), 1, &fault), fault, 0, CRONSIM_EMPTY);
        want_empty(all[i]);
        want("opened", cronsim_open(all[i], text("0 0 * * *"), 9, &fault), CRONSIM_DONE);
        want("midnight", cronsim_next(all[i], 1, &due) == CRONSIM_DONE && due == 86400, 1);
        cronsim_close(all[i]);
        want_empty(all[i]);
    }
    free(asked_for);
}

// The version is the header's. Nothing is written without room for it.
static void version(void) {
    uint8_t answer[16];
    size_t wanted = strlen(CRONSIM_VERSION), size = 0;
    memset(answer, 7, sizeof answer);
    want("version, no room", cronsim_version(answer, wanted - 1, &size), CRONSIM_ROOM);
    want("version, what it needs", size == wanted && answer[0] == 7, 1);
    want("version", cronsim_version(answer, sizeof answer, &size), CRONSIM_DONE);
    want("that of the header", size == wanted && !memcmp(answer, CRONSIM_VERSION, wanted), 1);
    want("no byte after it", answer[wanted], 7);
}

// The sentence of a fault, with the request for memory of this number refused; tells whether one
// was.
static bool says(void) {
    static const char words[] = "schedule: field 1 (minute), byte 0: '60' is outside 0 to 59";
    const cronsim_fault fault = {1, CRONSIM_NUMBER, 0};
    uint8_t answer[128];
    size_t size = 9;
    memset(answer, 7, sizeof answer);
    asked = 0;
    uint32_t status =
        cronsim_fault_text(text("60 * * * *"), 10, &fault, answer, sizeof answer, &size);
    bool was_refused = asked >= refused_one;
    want("said", status, was_refused ? CRONSIM_MEMORY : CRONSIM_DONE);
    if (was_refused)
        want("nothing written", size == 9 && answer[0] == 7, 1);
    else
        want("the words", size == sizeof words - 1 && !memcmp(answer, words, size), 1);
    return was_refused;
}

// Faults that no call told of a schedule have no sentence, whatever their numbers.
static void sentences(void) {
    const cronsim_fault none[] = {{6, CRONSIM_NO_ZONE, 0}, {0, CRONSIM_NO_TEXT, 0},
                                  {0, 0, 0},               {6, CRONSIM_SYNTAX, 0},
                                  {256, CRONSIM_STEP, 0},  {UINT32_MAX, UINT32_MAX, UINT64_MAX}};
    const cronsim_fault far = {5, CRONSIM_ORDER, UINT64_MAX};
    uint8_t answer[128] = {7};
    size_t size = 9;
    for (size_t i = 0; i < sizeof none / sizeof *none; i++)
        want("no sentence",
             cronsim_fault_text(text("* * * * *"), 9, &none[i], answer, sizeof answer, &size),
             CRONSIM_NONE);
    want("no UTF-8", cronsim_fault_text(text("\xff"), 1, &far, answer, sizeof answer, &size),
         CRONSIM_NONE);
    want("nothing written", size == 9 && answer[0] == 7, 1);
    want("past the text", cronsim_fault_text(text("*"), 1, &far, answer, sizeof answer, &size),
         CRONSIM_DONE);
}

// Lengths of 0 and of a thousand million, and bytes that aren't UTF-8, beside a handle that keeps
// what it kept.
static void lengths(void) {
    cronsim_cron cron = CRONSIM_CRON_INIT;
    cronsim_fault fault = {0, 0, 0};
    uint64_t due = 0;
    const size_t many = 1000000000;
    want("opened", cronsim_open(&cron, text("0 0 * * *"), 9, &fault), CRONSIM_DONE);
    want_fault("no bytes", cronsim_open(&cron, text(""), 0, &fault), fault, 0, CRONSIM_EMPTY);
    want_fault("1 GB", cronsim_open(&cron, text("* * * * *"), many, &fault), fault, 0,
               CRONSIM_LENGTH);
    want_fault("SIZE_MAX / 2", cronsim_open(&cron, text("* * * * *"), SIZE_MAX / 2, &fault), fault,
               0, CRONSIM_LENGTH);
    want_fault("no UTF-8", cronsim_open(&cron, text("* * * * \xff"), 9, &fault), fault, 0,
               CRONSIM_NO_TEXT);
    want_fault("half a character", cronsim_open(&cron, text("* * * * \xc3"), 9, &fault), fault, 0,
               CRONSIM_NO_TEXT);
    want_fault("a zero byte, in Latin", cronsim_open(&cron, text("\0\xe9"), 2, &fault), fault, 0,
               CRONSIM_NO_TEXT);
    want_fault("no rule", cronsim_open_rule(&cron, text("* * * * *"), 9, text(""), 0, &fault),
               fault, 6, CRONSIM_NO_ZONE);
    want_fault("rule of 1 GB",
               cronsim_open_rule(&cron, text("* * * * *"), 9, text("UTC0"), many, &fault), fault, 6,
               CRONSIM_NO_ZONE);
    want_fault("rule, no UTF-8",
               cronsim_open_rule(&cron, text("* * * * *"), 9, text("\xffTC0"), 4, &fault), fault, 6,
               CRONSIM_NO_ZONE);
    want_fault("no file", cronsim_open_file(&cron, text("* * * * *"), 9, text(""), 0, &fault),
               fault, 6, CRONSIM_NO_ZONE);
    want_fault("file of 1 GB",
               cronsim_open_file(&cron, text("* * * * *"), 9, text("TZif"), many, &fault), fault, 6,
               CRONSIM_NO_ZONE);
    want_fault("no zone file",
               cronsim_open_file(&cron, text("* * * * *"), 9, text("TZif2"), 5, &fault), fault, 6,
               CRONSIM_NO_ZONE);
    bool is_match = true;
    want("still midnight", cronsim_next(&cron, 1, &due) == CRONSIM_DONE && due == 86400, 1);
    want("a minute past", cronsim_matches(&cron, 86460, &is_match) == CRONSIM_DONE && !is_match, 1);
    want("in its minute", cronsim_matches(&cron, 86459, &is_match) == CRONSIM_DONE && is_match, 1);
    cronsim_close(&cron);
}

// Times past the last one.
static void ranges(void) {
    cronsim_cron cron = CRONSIM_CRON_INIT;
    cronsim_fault fault = {0, 0, 0};
    cronsim_missed_times missed = {7, 8};
    uint64_t due = 9, last = 253370764799u, many[2] = {9, 9};
    size_t found = 9;
    bool is_match = false;
    want("opened", cronsim_open(&cron, text("* * * * *"), 9, &fault), CRONSIM_DONE);
    want("next many, past the end", cronsim_next_many(&cron, last + 1, last, many, 2, &found),
         CRONSIM_RANGE);
    want("next many, to past the end", cronsim_next_many(&cron, 0, UINT64_MAX, many, 2, &found),
         CRONSIM_RANGE);
    want("none of many written", found == 9 && many[0] == 9 && many[1] == 9, 1);
    want("next many, turned round",
         cronsim_next_many(&cron, 600, 60, many, 2, &found) == CRONSIM_DONE && found == 0, 1);
    found = 9;
    want("next many, no room",
         cronsim_next_many(&cron, 0, last, many, 0, &found) == CRONSIM_DONE && found == 0, 1);
    want("nothing written", many[0] == 9 && many[1] == 9, 1);
    want("next many, two of a thousand million",
         cronsim_next_many(&cron, 59, last, many, 2, &found) == CRONSIM_DONE && found == 2 &&
             many[0] == 60 && many[1] == 120,
         1);
    want("next many, one for two",
         cronsim_next_many(&cron, 120, 239, many, 2, &found) == CRONSIM_DONE && found == 1 &&
             many[0] == 180 && many[1] == 120,
         1);
    want("next after the end", cronsim_next(&cron, last, &due), CRONSIM_NONE);
    want("next, past the end", cronsim_next(&cron, last + 1, &due), CRONSIM_RANGE);
    want("next, UINT64_MAX", cronsim_next(&cron, UINT64_MAX, &due), CRONSIM_RANGE);
    want("previous, past the end", cronsim_previous(&cron, 0, UINT64_MAX, &due), CRONSIM_RANGE);
    want("missed, past the end", cronsim_missed(&cron, UINT64_MAX, 0, &missed), CRONSIM_RANGE);
    want("matches, past the end", cronsim_matches(&cron, UINT64_MAX, &is_match), CRONSIM_RANGE);
    want("previous, turned round", cronsim_previous(&cron, 600, 60, &due), CRONSIM_NONE);
    want("nothing written", due == 9 && !is_match && missed.count == 7 && missed.latest == 8, 1);
    want("missed, turned round",
         cronsim_missed(&cron, 600, 60, &missed) == CRONSIM_DONE && missed.count == 0, 1);
    want("all since 1970",
         cronsim_missed(&cron, 0, last, &missed) == CRONSIM_DONE && missed.count == 101, 1);
    cronsim_close(&cron);
}

static const char manifest[] =
    "{\"apiVersion\":\"batch/"
    "v1\",\"kind\":\"CronJob\",\"metadata\":{\"name\":\"hello\"},\"spec\":{\"schedule\":\"30 2 * * "
    "*\","
    "\"timeZone\":\"Europe/"
    "Berlin\",\"jobTemplate\":{\"spec\":{\"template\":{\"spec\":{\"restartPolicy\":\"Never\"}}}}}}";
static const char zones[] = "{\"Europe/Berlin\":\"CET-1CEST,M3.5.0,M10.5.0/3\"}";
static const char sound[] =
    "{\"kind\":\"CronJob\",\"name\":\"hello\",\"namespace\":\"default\",\"warnings\":[]}";
static const char no_zone[] = "[{\"cause\":\"Zone\",\"field\":\"spec.timeZone\"}]";
static const char no_json[] = "[{\"cause\":\"Syntax\",\"field\":\"$\"}]";
static const char no_form[] = "[{\"cause\":\"Form\",\"field\":\"$\"}]";
static const char plan[] = "{\"claim\":null,\"clean\":[],\"drop\":[],\"make\":null,\"next\":\"2024-"
                           "01-01T01:30:00Z\",\"reasons\":[],\"status\":null}";
static const char empty_audit[] = "{\"cronJobs\":0,\"findings\":[],\"jobs\":0,\"manual\":[],"
                                  "\"others\":[{\"item\":1,\"kind\":\"Pod\"}],\"refused\":[]}";
static const char empty_why[] = "{\"cronJobs\":[],\"now\":\"2024-01-01T00:00:00Z\","
                                "\"others\":[{\"item\":1,\"kind\":\"Pod\"}],\"refused\":[]}";
static const char empty_upcoming[] =
    "{\"changes\":[],\"cronJobs\":0,\"files\":[{\"file\":null,\"others\":[{\"item\":1,"
    "\"kind\":\"Pod\"}],\"refused\":[]}],\"from\":\"2024-01-01T00:00:00Z\",\"idle\":[],"
    "\"minutes\":[],\"peaks\":[],\"starts\":0,\"to\":\"2024-01-01T01:00:00Z\"}";
static const char midnight[] =
    "{\"after\":\"2024-01-01T00:00:00Z\",\"changes\":[],\"schedule\":\"0 0 * * *\","
    "\"sentence\":\"At 00:00, by the clock of UTC\",\"timeZone\":\"UTC\",\"times\":[{"
    "\"inSeconds\":86400,\"local\":\"2024-01-02T00:00\",\"offset\":\"+00:00\","
    "\"utc\":\"2024-01-02T00:00:00Z\",\"weekday\":\"Tuesday\"}]}";
static char scenario[1024];

enum call {
    CHECK,
    PLAN,
    AUDIT,
    WHY,
    UPCOMING,
    DESCRIBE
};

// Makes one of the calls that answer with JSON; the zones, or none, or of a schedule the rule. The
// moment is 2024-01-01T00:00:00Z, and the window an hour.
static uint32_t told(enum call call, const char *bytes, size_t length, const char *by,
                     uint8_t *answer, size_t room, size_t *size) {
    const uint64_t now = 1704067200;
    const uint8_t *words = text(bytes), *zones = text(by);
    size_t many = strlen(by);
    switch (call) {
    case CHECK: return cronsim_check(words, length, zones, many, answer, room, size);
    case PLAN: return cronsim_plan(words, length, now, answer, room, size);
    case AUDIT: return cronsim_audit(words, length, zones, many, answer, room, size);
    case WHY: return cronsim_why(words, length, zones, many, now, answer, room, size);
    case UPCOMING:
        return cronsim_upcoming(words, length, zones, many, now, 3600, 1, answer, room, size);
    default: return cronsim_describe(words, length, zones, many, now, 1, answer, room, size);
    }
}

// The answer is this one; nothing is written without room for it, nor behind it.
static void want_told(const char *what, enum call call, const char *bytes, size_t length,
                      const char *by, uint32_t status, const char *answer) {
    uint8_t buffer[1024];
    size_t wanted = strlen(answer);
    for (size_t room = 0; room <= wanted + 1; room += room + 1 < wanted ? wanted - 1 : 1) {
        size_t size = 0;
        memset(buffer, 7, sizeof buffer);
        want(what, told(call, bytes, length, by, buffer, room, &size),
             room < wanted ? CRONSIM_ROOM : status);
        want(what, size, wanted);
        size_t written = room < wanted ? 0 : wanted;
        want(what, memcmp(buffer, answer, written), 0);
        for (size_t at = written; at < sizeof buffer; at++) want(what, buffer[at], 7);
    }
}

// Texts of no byte, of bytes that aren't UTF-8, of other forms and too deep.
static void texts(void) {
    static char deep[400];
    memset(deep, '[', 200);
    memset(deep + 200, ']', 200);
    for (enum call call = CHECK; call <= UPCOMING; call++) {
        want_told("no bytes", call, "", 0, "", CRONSIM_REFUSED, no_json);
        want_told("no UTF-8", call, "\"\xff\"", 3, "", CRONSIM_REFUSED, no_json);
        want_told("a zero byte", call, "\0", 1, "", CRONSIM_REFUSED, no_json);
        want_told("too deep", call, deep, sizeof deep, "", CRONSIM_REFUSED, no_json);
        want_told("half of it", call, manifest, sizeof manifest / 2, "", CRONSIM_REFUSED, no_json);
        if (call != CHECK) want_told("a number", call, "1", 1, "", CRONSIM_REFUSED, no_form);
        if (call == PLAN) continue;
        want_told("zones, no UTF-8", call, manifest, sizeof manifest - 1, "\xff", CRONSIM_REFUSED,
                  "[{\"cause\":\"Syntax\",\"field\":\"zones\"}]");
        want_told("zones, a list", call, manifest, sizeof manifest - 1, "[]", CRONSIM_REFUSED,
                  "[{\"cause\":\"Zone\",\"field\":\"zones\"}]");
        want_told("a second UTC", call, "", 0, "{\"UTC\":\"UTC0\"}", CRONSIM_REFUSED,
                  "[{\"cause\":\"Zone\",\"field\":\"zones\"}]");
    }
    want_told("a number", CHECK, "1", 1, "", CRONSIM_REFUSED,
              "[{\"cause\":\"Type\",\"field\":\"$\"}]");
    want_told("a manifest", CHECK, manifest, sizeof manifest - 1, zones, CRONSIM_DONE, sound);
    want_told("a zone that isn't known", CHECK, manifest, sizeof manifest - 1, "", CRONSIM_REFUSED,
              no_zone);
    want_told("a scenario", PLAN, scenario, strlen(scenario), "", CRONSIM_DONE, plan);
    const char *pods = "{\"kind\":\"List\",\"items\":[{\"kind\":\"Pod\"}]}";
    want_told("a Pod", AUDIT, pods, strlen(pods), zones, CRONSIM_DONE, empty_audit);
    want_told("a Pod", WHY, pods, strlen(pods), zones, CRONSIM_DONE, empty_why);
    want_told("a Pod", UPCOMING, pods, strlen(pods), zones, CRONSIM_DONE, empty_upcoming);
}

// Moments past the last one, and windows that are too long or end too late.
static void moments(void) {
    const uint64_t end = 253370764800u, days = 259200000;
    const uint8_t *none = text("");
    uint8_t answer[8] = {7};
    size_t size = 9;
    want("plan, past the end",
         cronsim_plan(text(scenario), strlen(scenario), end, answer, 8, &size), CRONSIM_RANGE);
    want("plan, UINT64_MAX", cronsim_plan(none, 0, UINT64_MAX, answer, 8, &size), CRONSIM_RANGE);
    want("why, past the end", cronsim_why(none, 0, none, 0, end, answer, 8, &size), CRONSIM_RANGE);
    want("describe, past the end", cronsim_describe(none, 0, none, 0, end, 1, answer, 8, &size),
         CRONSIM_RANGE);
    for (uint64_t from = 0; from <= 1; from++)
        want("a long window",
             cronsim_upcoming(none, 0, none, 0, from, days + 1 - from, 0, answer, 8, &size),
             from ? CRONSIM_ROOM : CRONSIM_RANGE);
    want("its length", size, sizeof no_json - 1);
    size = 9;
    want("a window to the end",
         cronsim_upcoming(none, 0, none, 0, end - 1, 1, 0, answer, 8, &size), CRONSIM_RANGE);
    want("UINT64_MAX + UINT64_MAX",
         cronsim_upcoming(none, 0, none, 0, UINT64_MAX, UINT64_MAX, 0, answer, 8, &size),
         CRONSIM_RANGE);
    want("nothing written", size == 9 && answer[0] == 7, 1);
}

// Schedules and rules that are refused, and a sentence.
static void schedules(void) {
    static char many[1025];
    memset(many, '*', sizeof many);
    want_told("a schedule", DESCRIBE, "0 0 * * *", 9, "UTC", CRONSIM_DONE, midnight);
    want_told("no bytes", DESCRIBE, "", 0, "", CRONSIM_REFUSED,
              "[{\"cause\":\"Schedule 0 0 Empty\",\"field\":\"schedule\"}]");
    want_told("too long", DESCRIBE, many, sizeof many, "", CRONSIM_REFUSED,
              "[{\"cause\":\"Schedule 0 0 Length\",\"field\":\"schedule\"}]");
    want_told("no UTF-8", DESCRIBE, "* * * * \xff", 9, "", CRONSIM_REFUSED,
              "[{\"cause\":\"Format\",\"field\":\"schedule\"}]");
    const char *rules[] = {"rule", "\xff", "Etc/UTC", "Local", "UTC0\n"};
    for (size_t i = 0; i < sizeof rules / sizeof *rules; i++)
        want_told("no rule", DESCRIBE, "* * * * *", 9, rules[i], CRONSIM_REFUSED,
                  "[{\"cause\":\"Zone\",\"field\":\"zone\"}]");
}

// NULL is no byte, by the words of the header for it; of a text, of a buffer and of times.
static void nulls(void) {
    cronsim_cron cron = CRONSIM_CRON_INIT;
    cronsim_fault fault = {0, 0, 0};
    size_t size = 0;
    want_fault("NULL", cronsim_open(&cron, cronsim_text(NULL), 0, &fault), fault, 0, CRONSIM_EMPTY);
    want("no zones",
         cronsim_check(text("{"), 1, cronsim_text(NULL), 0, cronsim_buffer(NULL), 0, &size),
         CRONSIM_ROOM);
    want("its length", size, sizeof no_json - 1);
    want("opened", cronsim_open(&cron, text("* * * * *"), 9, &fault), CRONSIM_DONE);
    want("no times",
         cronsim_next_many(&cron, 0, 600, cronsim_times(NULL), 0, &size) == CRONSIM_DONE &&
             size == 0,
         1);
    cronsim_close(&cron);
    uint8_t byte = 7;
    uint64_t time = 7;
    want("the same text", cronsim_text(&byte) == &byte, 1);
    want("the same buffer", cronsim_buffer(&byte) == &byte, 1);
    want("the same times", cronsim_times(&time) == &time, 1);
}

// One of those calls with the request for memory of this number refused; tells whether one was.
static bool tells(int number_of_call) {
    static const struct {
        enum call call;
        const char *bytes, *by;
        uint32_t status;
    } all[] = {{CHECK, manifest, zones, CRONSIM_DONE}, {CHECK, manifest, "", CRONSIM_REFUSED},
               {CHECK, "{", zones, CRONSIM_REFUSED},   {CHECK, "{}", "[]", CRONSIM_REFUSED},
               {PLAN, scenario, "", CRONSIM_DONE},     {PLAN, "{}", "", CRONSIM_REFUSED},
               {AUDIT, manifest, zones, CRONSIM_DONE}, {AUDIT, "1", zones, CRONSIM_REFUSED},
               {WHY, manifest, zones, CRONSIM_DONE},   {WHY, "1", zones, CRONSIM_REFUSED},
               {UPCOMING, manifest, zones, CRONSIM_DONE},
               {UPCOMING, "1", zones, CRONSIM_REFUSED},
               {DESCRIBE, "30 2 * * *", "CET-1CEST,M3.5.0,M10.5.0/3", CRONSIM_DONE},
               {DESCRIBE, "30 2 * *", "", CRONSIM_REFUSED},
               {DESCRIBE, "30 2 * * *", "rule", CRONSIM_REFUSED}};
    uint8_t answer[1024];
    size_t size = 9;
    memset(answer, 7, sizeof answer);
    asked = 0;
    const char *bytes = all[number_of_call].bytes;
    uint32_t status = told(all[number_of_call].call, bytes, strlen(bytes), all[number_of_call].by,
                           answer, sizeof answer, &size);
    bool was_refused = asked >= refused_one;
    want("told", status, was_refused ? CRONSIM_MEMORY : all[number_of_call].status);
    if (was_refused)
        want("nothing written",
             size == 9 && answer[0] == 7 && memcmp(answer, answer + 1, sizeof answer - 1) == 0, 1);
    return was_refused;
}

// Opens handles of its own, each for another hour, and looks through three days of each: what a
// thread does.
static void *alone(void *first) {
    const uint64_t day = 86400;
    for (int turn = 0; turn < 240; turn++) {
        cronsim_cron cron = CRONSIM_CRON_INIT;
        cronsim_fault fault = {0, 0, 0};
        uint64_t due = day, hour = (uint64_t)(*(int *)first + turn) % 24;
        char schedule[16];
        int length = snprintf(schedule, sizeof schedule, "0 %d * * *", (int)hour);
        want("opened by a thread", cronsim_open(&cron, text(schedule), (size_t)length, &fault),
             CRONSIM_DONE);
        for (uint64_t days = 1; days < 4; days++) {
            want("next in a thread", cronsim_next(&cron, due, &due), CRONSIM_DONE);
            want("due in a thread", due, (days + (hour == 0)) * day + hour * 3600);
        }
        cronsim_close(&cron);
        if (turn % 60 == 0)
            want_told("told in a thread", PLAN, scenario, strlen(scenario), "", CRONSIM_DONE, plan);
    }
    return NULL;
}

// Handles of different threads, at the same time.
static void threads(void) {
    pthread_t all[4];
    int firsts[4] = {0, 5, 11, 17};
    for (int i = 0; i < 4; i++)
        want("a thread", (unsigned)pthread_create(&all[i], NULL, alone, &firsts[i]), 0);
    for (int i = 0; i < 4; i++) pthread_join(all[i], NULL);
}

// A first and a second opening, by each call in turn, with the request for memory of this number
// refused; tells whether one was.
static bool opens(int call, const uint8_t *file, size_t file_length) {
    cronsim_cron cron = CRONSIM_CRON_INIT;
    cronsim_fault fault = {7, 8, 9};
    uint64_t due = 0;
    uint32_t status;
    long number = refused_one;
    refused_one = 0;
    want("opened", cronsim_open(&cron, text("0 0 * * *"), 9, &fault), CRONSIM_DONE);
    asked = 0;
    refused_one = number;
    if (call == 0)
        status = cronsim_open(&cron, text("30 2 * * *"), 10, &fault);
    else if (call == 1)
        status = cronsim_open_rule(&cron, text("30 2 * * *"), 10,
                                   text("CET-1CEST,M3.5.0,M10.5.0/3"), 26, &fault);
    else if (call == 2)
        status = cronsim_open_file(&cron, text("30 2 * * *"), 10, file, file_length, &fault);
    else
        status = cronsim_open_file(&cron, text("30 2 * * *"), 10, text("no zone file"), 12, &fault);
    bool was_refused = asked >= number;
    if (was_refused)
        want("refused memory", status, CRONSIM_MEMORY);
    else
        want("with memory", status, call == 3 ? CRONSIM_REFUSED : CRONSIM_DONE);
    if (status == CRONSIM_MEMORY)
        want("the fault stays", fault.field == 7 && fault.cause == 8 && fault.byte == 9, 1);
    long before = asked;
    want("next", cronsim_next(&cron, 1, &due), CRONSIM_DONE);
    want("what is kept", due == 86400, status != CRONSIM_DONE);
    cronsim_close(&cron);
    want("no memory but to open", asked, before);
    return was_refused;
}

int main(int count, char **words) {
    static uint8_t file[1 << 20];
    size_t file_length = 0;
    FILE *input = count > 1 ? fopen(words[1], "rb") : NULL;
    if (input) {
        file_length = fread(file, 1, sizeof file, input);
        fclose(input);
    }
    snprintf(scenario, sizeof scenario,
             "{\"manifest\":%s,\"created\":\"2024-01-01T00:00:00Z\",\"zones\":%s}", manifest,
             zones);
    closed();
    version();
    sentences();
    lengths();
    ranges();
    texts();
    moments();
    schedules();
    nulls();
    threads();
    long refusals = 0;
    for (int call = 0; call < 4; call++) {
        if (call == 2 && !file_length) continue;
        for (refused_one = 1; opens(call, file, file_length); refused_one++) refusals++;
    }
    for (int call = 0; call < 15; call++)
        for (refused_one = 1; tells(call); refused_one++) refusals++;
    for (refused_one = 1; says(); refused_one++) refusals++;
    printf("library: hostile: each answer as stated, with %ld requests for memory refused\n",
           refusals);
    return refusals ? 0 : 1;
}
