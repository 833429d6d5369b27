/*
 * libcronsim computes due times of crontab schedules, as a Kubernetes CronJob has them, in any time
 * zone. It says a schedule in a sentence. From JSON it checks manifests, plans what the controller
 * does next, audits a cluster, says why its CronJobs start a Job or not, and lists what they start
 * in a window of time. The answers are proved: the next due time is the least one, and the previous
 * one the greatest. "None" means that there is none. A check finds all faults of a manifest, a plan
 * is the one of its scenario, and an audit finds exactly what is wrong.
 *
 * Times are whole seconds since 1970-01-01T00:00:00Z. The greatest is 253370764799, the last second
 * of the year 9998.
 *
 * A text is a pointer to bytes and their number. It needs no zero at the end and may have any
 * content: the call refuses what is no schedule, rule, zone file, UTF-8 or JSON of its form. The
 * library reads a text during the call alone. It points to as many bytes as the length says, with
 * one exception: the length of a schedule, a rule or a zone file may be greater than the call's
 * limit, up to PTRDIFF_MAX. Then the call refuses the text and reads no byte.
 *
 * No pointer of a call is NULL, even for length 0. If one of yours may be, pass cronsim_text(at),
 * of a buffer cronsim_buffer(at), of an array of times cronsim_times(at): NULL becomes the place of
 * no byte and of no time, and all else stays.
 *
 * Initialise each place that a call writes to: a bool to false, a buffer to any bytes, an array to
 * any numbers. The call writes there if it answers CRONSIM_DONE. If it answers CRONSIM_REFUSED, it
 * writes only the fault, or the answer in JSON. CRONSIM_ROOM is explained below. After any other
 * answer all stays as it was. No two pointers of a call overlap.
 *
 * Memory comes from malloc, realloc and free. Only the calls that open a handle and those that
 * answer with a text ask for it. The latter free all of it before they return. Where memory runs
 * out, a call answers CRONSIM_MEMORY and changes nothing. No call prints, waits, locks, starts a
 * thread, ends the process, or keeps a pointer that it is given. None sets errno, unless malloc,
 * realloc or free does.
 *
 * Threads: calls on different handles may run at the same time, and so may calls without a handle.
 * Give a handle to one call at a time, even to one that only looks for times, which keeps what is
 * in it: where threads look at once, each opens a handle of its own. A handle may move to another
 * thread if you order that, by a lock or a join. Don't call from a signal handler, nor in
 * the forked child of a process that has threads. No call was seen to take more than 112 KiB of
 * stack, even for JSON that nests as deep as it may.
 */
#ifndef CRONSIM_H
#define CRONSIM_H

#include <stdbool.h>
#include <stddef.h>
#include <stdint.h>

#ifdef __cplusplus
extern "C" {
#endif

/* The version of this header; cronsim_version gives that of the library. */
#define CRONSIM_VERSION "0.2.0"

/* The answer of a call. */
enum {
    CRONSIM_DONE = 0,    /* done */
    CRONSIM_NONE = 1,    /* there is no such time, or no such text */
    CRONSIM_REFUSED = 2, /* a text is refused: the fault or the answer says why */
    CRONSIM_MEMORY = 3,  /* memory ran out */
    CRONSIM_RANGE = 4,   /* a time is after the year 9998 */
    CRONSIM_CLOSED = 5,  /* the handle is empty */
    CRONSIM_ROOM = 6     /* the buffer is too small; the length says what is needed */
};

/* Why a text is refused: the member `cause` of a fault. */
enum {
    CRONSIM_LENGTH = 1, /* the schedule has more than 1,024 bytes */
    CRONSIM_EMPTY = 2,  /* the schedule is blank */
    CRONSIM_ZONE = 3,   /* the schedule begins with TZ= or CRON_TZ= */
    CRONSIM_MACRO = 4,  /* the schedule begins with @, but is no macro */
    CRONSIM_FIELDS = 5, /* the schedule doesn't have five fields */
    CRONSIM_SYNTAX = 6, /* an element has none of the forms */
    CRONSIM_NUMBER = 7, /* a number is out of its field's range */
    CRONSIM_ORDER = 8,  /* a range ends before it begins */
    CRONSIM_STEP = 9,   /* a step is zero, or has more than nine digits */
    /* the rule (of at most 1,024 bytes) or the zone file (of at most 1,048,576) is refused */
    CRONSIM_NO_ZONE = 10,
    CRONSIM_NO_TEXT = 11 /* the schedule isn't UTF-8 */
};

/*
 * A handle: it keeps a schedule in its zone, read once. The members belong to the library.
 *
 * A handle of zero bytes is empty, as a static one is, or one that CRONSIM_CRON_INIT, {0}, memset
 * or calloc makes. So is a closed one. A call that looks in an empty handle answers CRONSIM_CLOSED
 * and writes nothing. Closing it does nothing, however often. Opening fills it.
 *
 * Two things the library can't know, and both are undefined behaviour. The bytes of the handle were
 * never set: it may seem full. And it was copied: once one of the two is closed or opened again,
 * the other points to memory that is free. You may move a handle, by a copy after which the old
 * place isn't used again.
 */
typedef struct cronsim_cron {
    void *at;
    bool full;
} cronsim_cron;

/* An empty handle: cronsim_cron cron = CRONSIM_CRON_INIT; */
#define CRONSIM_CRON_INIT {0, false}

/* The place of a text, or, for NULL, of no byte. */
static inline const uint8_t *cronsim_text(const void *at) {
    return at ? (const uint8_t *)at : (const uint8_t *)"";
}

/* The same of a buffer, whose capacity is 0 where it is NULL. */
static inline uint8_t *cronsim_buffer(void *at) {
    static uint8_t none;
    return at ? (uint8_t *)at : &none;
}

/* The same of an array of times, whose capacity is 0 where it is NULL. */
static inline uint64_t *cronsim_times(uint64_t *at) {
    static uint64_t none;
    return at ? at : &none;
}

/* Where a text has its fault, and which. */
typedef struct cronsim_fault {
    /* 1 (the minute) to 5 (the day of the week); 0 is the whole schedule, 6 the zone */
    uint32_t field;
    uint32_t cause; /* one of the causes above */
    uint64_t byte;  /* the byte, from 0, at which the faulty element begins; else 0 */
} cronsim_fault;

/* How many due times were missed, and the latest of them. */
typedef struct cronsim_missed_times {
    uint64_t count;  /* 0 to 100, or 101 for more than 100 */
    uint64_t latest; /* 0 if none was missed */
} cronsim_missed_times;

/*
 * Opens a handle: it then keeps this schedule, in UTC, instead of what it kept. Answers
 * CRONSIM_DONE; CRONSIM_REFUSED with the fault of the schedule; CRONSIM_MEMORY. After the last two
 * the handle is as before.
 */
uint32_t cronsim_open(cronsim_cron *cron, const uint8_t *schedule, size_t schedule_length,
                      cronsim_fault *fault);

/* The same in the zone of a POSIX rule (POSIX.1-2017, section 8.3, TZ):
 * CET-1CEST,M3.5.0,M10.5.0/3. */
uint32_t cronsim_open_rule(cronsim_cron *cron, const uint8_t *schedule, size_t schedule_length,
                           const uint8_t *rule, size_t rule_length, cronsim_fault *fault);

/* The same in the zone of a compiled zone file (RFC 8536), given by its bytes. Such files are below
 * /usr/share/zoneinfo. */
uint32_t cronsim_open_file(cronsim_cron *cron, const uint8_t *schedule, size_t schedule_length,
                           const uint8_t *bytes, size_t bytes_length, cronsim_fault *fault);

/* Frees what the handle keeps, if anything, and leaves it empty. You may open it again, or close it
 * again. */
void cronsim_close(cronsim_cron *cron);

/*
 * Finds the least due time after `after`, within 3,000 days (259,200,000 seconds). Answers
 * CRONSIM_DONE; CRONSIM_NONE if there is none; CRONSIM_RANGE; CRONSIM_CLOSED.
 */
uint32_t cronsim_next(cronsim_cron *cron, uint64_t after, uint64_t *due);

/*
 * Finds the due times after `after` and up to `until`, in order, as many as have room: writes them
 * to the beginning of `times`, which has room for `capacity` numbers, and to `count` how many they
 * are. The rest of `times` stays as it is. If they are fewer than `capacity`, these are all; else
 * go on after the last one. Answers CRONSIM_DONE, even if there is none; CRONSIM_RANGE;
 * CRONSIM_CLOSED.
 */
uint32_t cronsim_next_many(cronsim_cron *cron, uint64_t after, uint64_t until, uint64_t *times,
                           size_t capacity, size_t *count);

/* Finds the greatest due time after `after` and up to `until`. Answers CRONSIM_DONE; CRONSIM_NONE;
 * CRONSIM_RANGE; CRONSIM_CLOSED. */
uint32_t cronsim_previous(cronsim_cron *cron, uint64_t after, uint64_t until, uint64_t *due);

/* Counts the due times after `after` and up to `until`, as a controller counts the times that it
 * missed, and finds the latest. Answers CRONSIM_DONE; CRONSIM_RANGE; CRONSIM_CLOSED. */
uint32_t cronsim_missed(cronsim_cron *cron, uint64_t after, uint64_t until,
                        cronsim_missed_times *missed);

/* Says whether the zone's clock shows a minute that the schedule allows. Answers CRONSIM_DONE;
 * CRONSIM_RANGE; CRONSIM_CLOSED. */
uint32_t cronsim_matches(cronsim_cron *cron, uint64_t at, bool *is_match);

/*
 * The calls below answer with a text: in UTF-8, on one line, and with no byte after it. It goes to
 * the beginning of your buffer, and its length in bytes to `length`. The rest of the buffer stays
 * as it is. If the buffer of `capacity` bytes is too small, the call answers CRONSIM_ROOM, leaves
 * the buffer as it is, and writes the length that it needs to `length`. Call again with that much
 * room. To ask for the length alone, give the capacity 0. The library keeps nothing from one call
 * to the next.
 */

/* Gives the version of the library, which should be that of the header, CRONSIM_VERSION. Answers
 * CRONSIM_DONE; CRONSIM_ROOM. */
uint32_t cronsim_version(uint8_t *answer, size_t capacity, size_t *length);

/*
 * Says what is wrong with a schedule, in the words of `cronsim next --explain`:
 * schedule: field 1 (minute), byte 0: '60' is outside 0 to 59
 * Give the schedule that was refused, and the fault that the call wrote. Answers CRONSIM_DONE;
 * CRONSIM_NONE if there are no such words: the fault is the zone's, the schedule isn't UTF-8, or no
 * call writes such a fault; CRONSIM_ROOM; CRONSIM_MEMORY.
 */
uint32_t cronsim_fault_text(const uint8_t *schedule, size_t schedule_length,
                            const cronsim_fault *fault, uint8_t *answer, size_t capacity,
                            size_t *length);

/*
 * The text of each of the calls below is one JSON value (RFC 8259).
 *
 * If a text is refused, the call answers CRONSIM_REFUSED. The JSON value is then a list of faults,
 * each with its `field` and its `cause`:
 * [{"cause":"Range","field":"spec.startingDeadlineSeconds"}]. The field is a path, or `$` for the
 * whole text. The causes are Required, Type, NotSupported, Fraction, TooLong, Format, Range, Zone,
 * NotAllowed, and `Schedule FIELD BYTE CAUSE` with the numbers of a fault above and the cause's
 * name. Of a text as a whole there are two more. Syntax: it isn't JSON in UTF-8, or nests more than
 * 127 deep. Form: it is JSON of another form.
 *
 * `zones` is a JSON object from names of zones to POSIX rules:
 * {"Europe/Berlin":"CET-1CEST,M3.5.0,M10.5.0/3"}. With no byte, only UTC and Etc/UTC are known. The
 * call looks at it first. Its faults have the field `zones`, and the cause Syntax or Zone.
 */

/*
 * Checks the manifest of a CronJob or a Job. Answers CRONSIM_DONE with an object: its `kind`,
 * `namespace` and `name`, and in `warnings` the paths of the fields that Kubernetes drops;
 * CRONSIM_REFUSED with all faults; CRONSIM_ROOM; CRONSIM_MEMORY.
 */
uint32_t cronsim_check(const uint8_t *manifest, size_t manifest_length, const uint8_t *zones,
                       size_t zones_length, uint8_t *answer, size_t capacity, size_t *length);

/*
 * Plans the next sync of a CronJob, at the moment `now`. The scenario is a JSON object. It has the
 * CronJob's `manifest`, the time `created` of its creation, and maybe its `last` schedule time,
 * its `jobs` and `zones`. `jobs` is a list of objects, each with a `time` and an `outcome`
 * (Running, Complete or Failed); `zones` is an object as above. Times are texts like
 * 2024-01-01T00:00:00Z.
 *
 * Answers CRONSIM_DONE with the plan that `cronsim plan -o json` prints: an object with `claim`,
 * the time that the sync claims, or null; `drop`, the Jobs that it deletes before it makes one;
 * `make`, the name of the Job that it makes, or null; `clean`, the finished Jobs that it deletes;
 * `reasons`, why it makes none; `status`, the status that it writes at the end, or null; and
 * `next`, when to look again, or null. CRONSIM_REFUSED with one fault, the first one of a manifest;
 * CRONSIM_RANGE; CRONSIM_ROOM; CRONSIM_MEMORY.
 */
uint32_t cronsim_plan(const uint8_t *scenario, size_t scenario_length, uint64_t now,
                      uint8_t *answer, size_t capacity, size_t *length);

/*
 * Audits a cluster. The list is the output of `kubectl get cronjobs,jobs -A -o json`. Answers
 * CRONSIM_DONE, even if much is wrong, with what `cronsim audit -o json` prints: an object with
 * `cronJobs` and `jobs`, how many it looked at; `findings`, each with its `finding` (twice, beside,
 * undue, early, missing, stray or stuck), the `namespace` and `name` of the CronJob, the `time`,
 * and the names of the `jobs`; `manual`, the Jobs that somebody made by hand; and in `refused` and
 * `others` the items of the list that it can't use. A fault of a refused item also has a `message`
 * in words. CRONSIM_REFUSED if the text is no list; CRONSIM_ROOM; CRONSIM_MEMORY.
 */
uint32_t cronsim_audit(const uint8_t *list, size_t list_length, const uint8_t *zones,
                       size_t zones_length, uint8_t *answer, size_t capacity, size_t *length);

/*
 * Says why each CronJob of a cluster starts a Job at the moment `now`, or not. The list is as for
 * cronsim_audit. Answers CRONSIM_DONE with what `cronsim why -o json` prints, without its member
 * `calls`: an object with `now`; `cronJobs`, each with its `namespace` and `name`, the `verdict` in
 * a word, `why` in sentences, the times that it `missed`, the names of its `running` Jobs and of
 * those that the list `lacks`, its `plan`, as cronsim_plan gives it, or null, and when to look
 * again, `next`, or null; and in `refused` and `others` the items of the list that it can't use.
 * CRONSIM_REFUSED if the text is no list; CRONSIM_RANGE; CRONSIM_ROOM; CRONSIM_MEMORY.
 */
uint32_t cronsim_why(const uint8_t *list, size_t list_length, const uint8_t *zones,
                     size_t zones_length, uint64_t now, uint8_t *answer, size_t capacity,
                     size_t *length);

/*
 * Lists what a cluster's CronJobs start in the `span` seconds from `from` on. The list is as for
 * cronsim_audit. Answers CRONSIM_DONE with what `cronsim upcoming -o json` prints of it: an object
 * with `from`, `to`, and how many `cronJobs` and `starts` there are; `minutes`, each with its
 * `time`, a `count` and its `cronJobs`; in `peaks` the fullest minutes, as many as `peaks` says; in
 * `idle` the CronJobs that start nothing; in `changes` where the clocks of their zones are put; and
 * in `files` the items of the list that it can't use. It has no member `summary`.
 * CRONSIM_REFUSED if the text is no list, or, with the cause TooMany, if it has more than 4,000,000
 * starts; CRONSIM_RANGE if the window is longer than 3,000 days or ends after the year 9998;
 * CRONSIM_ROOM; CRONSIM_MEMORY.
 */
uint32_t cronsim_upcoming(const uint8_t *list, size_t list_length, const uint8_t *zones,
                          size_t zones_length, uint64_t from, uint64_t span, uint32_t peaks,
                          uint8_t *answer, size_t capacity, size_t *length);

/*
 * Says a schedule in a sentence, and finds its next times after `after`, at most `count`, in the
 * zone of a POSIX rule; with no byte, or `UTC`, in UTC. Answers CRONSIM_DONE with what `cronsim
 * describe -o json` prints: an object with the `schedule`, its `sentence`, `timeZone`, which is the
 * rule or null, `after`, the `times`, and in `changes` where the clock is put on the way.
 * CRONSIM_REFUSED with one fault: of the field `schedule`, with a cause as above, or Format if it
 * isn't UTF-8; or of the field `zone`, with the cause Zone. CRONSIM_RANGE; CRONSIM_ROOM;
 * CRONSIM_MEMORY.
 */
uint32_t cronsim_describe(const uint8_t *schedule, size_t schedule_length, const uint8_t *rule,
                          size_t rule_length, uint64_t after, uint16_t count, uint8_t *answer,
                          size_t capacity, size_t *length);

#ifdef __cplusplus
}
#endif

#endif
