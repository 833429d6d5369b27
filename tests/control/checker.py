#!/usr/bin/env python3
"""Reads the log of the small API server, and nothing else, and tells what a controller of CronJobs
did wrong. It shares no code with the server, nor with any controller.

usage: tests/control/checker.py LOG    (lines of JSON, as server.py --log writes them)

A Job runs from the write after which it isn't held any more (spec.suspend, spec.parallelism) until
it has finished or is gone. A claim is a write of status.lastScheduleTime by a replica. Found are:

    double      two Jobs of one CronJob, by uid, and one time that ran, or one that ran twice
    overlap     a Job that began to run while another of its CronJob ran: its claim was under
                Forbid, or under Replace and the other one wasn't being deleted
    unclaimed   a Job that a replica made or started, and that ran without a claim of its uid
    falling     a claimed time that isn't after the one before it
    undue       a claimed time at which the schedule at the claim isn't due, not after the creation,
                or to come by more than some seconds
    unstarted   a claimed time whose Job still stands held, or never was, after a quiet minute
    lost        a claimed Job that a replica deleted before it ran, within its deadline
    taken       a claimed Job that a replica deleted while it ran, and no later time was claimed
                under Replace
    missing     a due time that a CronJob owed for a calm minute: it stood, wasn't suspended, no
                later time was claimed, its deadline hadn't passed, and under Forbid none ran
    garbage     a held Job of a time that isn't after the last one, not in status.active, after a
                quiet minute
    unlike      a Job that isn't its CronJob's template at the claim, or not at the start
    twice       a request that was carried out twice
    backward    a status.lastSuccessfulTime that a replica put back or took away
    untrue      one that a replica wrote, and at which no Job of the CronJob succeeded
    unsaid      one that is earlier, a quiet minute after, than the end of a Job that succeeded and
                still stands or was deleted by a replica (batch/v1 only)

Notes of the test bench say when it was calm: no replica was killed or stalled, no request was lost.
"""
import json
import sys
import time
from calendar import timegm
from collections import Counter, defaultdict
from functools import lru_cache

TIME = "batch.kubernetes.io/cronjob-scheduled-timestamp"
POLICY = "cronsim/policy"
QUIET = 60
# By how many seconds a replica's clock may be ahead of the server's.
SKEW = 5
# What a server adds to the spec of a Job.
ADDED = {"selector", "completionMode", "backoffLimit", "podReplacementPolicy", "manualSelector"}


@lru_cache(4096)
def second_of(text):
    year, month, day = map(int, text[:10].split("-"))
    return timegm((year, month, day, *map(int, text[11:19].split(":"))))


def text_of(at):
    return time.strftime("%H:%M:%S", time.gmtime(at))


# ---- when a schedule is due, by looking at each minute


def allows(field, number, least):
    """Whether a field of a schedule allows a number; least is the field's least number."""
    for part in field.split(","):
        span, _, step = part.partition("/")
        if span in ("*", "?"):
            first, last = least, 99
        elif "-" in span:
            first, last = map(int, span.split("-"))
        else:
            first, last = int(span), 99 if step else int(span)
        if first <= number <= last and (number - first) % int(step or 1) == 0:
            return True
    return False


@lru_cache(65536)
def is_due(schedule, at):
    minute, hour, day, month, weekday = schedule.split()
    now = time.gmtime(at)
    if now.tm_sec or not allows(minute, now.tm_min, 0) or not allows(hour, now.tm_hour, 0):
        return False
    by_day = allows(day, now.tm_mday, 1)
    by_weekday = allows(weekday, (now.tm_wday + 1) % 7, 0)
    days = by_day and by_weekday if "*" in (day[:1], weekday[:1]) else by_day or by_weekday
    return allows(month, now.tm_mon, 1) and days


def latest_due(schedule, after, upto):
    at = int(upto) // 60 * 60
    while at > after:
        if is_due(schedule, at):
            return at
        at -= 60
    return None


# ---- what is known of an object


def uid_of(item):
    return item["metadata"]["uid"]


def key_of(item):
    return f"{item['metadata']['namespace']}/{item['metadata']['name']}"


def holds(job):
    return job["spec"].get("suspend") is True or job["spec"].get("parallelism") == 0


def is_leaving(item):
    return "deletionTimestamp" in item["metadata"]


def has_finished(job):
    conditions = (job.get("status") or {}).get("conditions") or []
    return any(it["type"] in ("Complete", "Failed") and it["status"] == "True" for it in conditions)


def success_of(job):
    """The text of the time at which a Job succeeded; none of another."""
    status = job.get("status") or {}
    conditions = status.get("conditions") or []
    if any(it["type"] == "Complete" and it["status"] == "True" for it in conditions):
        return status.get("completionTime")
    return None


def same_version(one, other):
    return one["metadata"]["resourceVersion"] == other["metadata"]["resourceVersion"]


def is_replica(who):
    return who.startswith("cronsim")


class Job:
    def __init__(self, item, entry):
        owners = item["metadata"].get("ownerReferences") or []
        self.owner = next((it["uid"] for it in owners if it.get("controller")), None)
        said = (item["metadata"].get("annotations") or {}).get(TIME)
        self.time = second_of(said) if said else None
        self.item, self.made, self.by_replica = item, entry["at"], is_replica(entry["who"])
        self.ran = self.gone = self.claim = self.deleted_by = None

    def runs(self):
        return self.ran is not None and self.gone is None and not has_finished(self.item)


class Cron:
    def __init__(self, item, at):
        self.item, self.made, self.gone = item, at, None
        self.jobs, self.claims, self.owed = {}, [], []
        self.deadlines = []

    def last(self):
        said = (self.item.get("status") or {}).get("lastScheduleTime")
        return second_of(said) if said else 0

    def owes(self, at):
        """The due time that it owes at a moment, and until when, if it does."""
        spec = self.item["spec"]
        if self.gone is not None or is_leaving(self.item) or spec.get("suspend"):
            return None
        due = latest_due(spec["schedule"], max(self.last(), self.made), at)
        deadline = spec.get("startingDeadlineSeconds")
        if due is None or deadline is not None and due + deadline <= at:
            return None
        if spec["concurrencyPolicy"] == "Forbid":
            if any(job.runs() for job in self.jobs.values() if job.claim or job.by_replica):
                return None
        return due, None if deadline is None else due + deadline


class Claim:
    def __init__(self, at, time_claimed, cron, ref):
        self.at, self.time, self.cron, self.ref = at, time_claimed, cron, ref
        self.spec = cron.item["spec"]
        self.policy = self.spec["concurrencyPolicy"]


class Checker:
    """Goes through a log, entry after entry."""

    def __init__(self):
        self.found, self.counts = [], Counter()
        self.crons, self.jobs, self.by_uid = {}, {}, {}
        self.ran, self.requests, self.delays = defaultdict(set), set(), []
        self.now, self.calm, self.calms = 0, None, []
        self.has_notes = False

    def tell(self, kind, text):
        self.counts[kind] += 1
        self.found.append((kind, f"{text_of(self.now)} {text}"))

    # ---- the log

    def check(self, log):
        for entry in log:
            self.go_to(entry["at"])
            if "note" in entry:
                self.noted(entry)
            else:
                self.see(entry)
        self.close(log)
        return self.found

    def go_to(self, at):
        """Looks at what is owed at each whole minute on the way."""
        if not self.now:
            self.now = at
        minute = int(self.now) // 60 * 60 + 60
        while minute <= at:
            self.now = minute
            for cron in self.crons.values():
                self.look(cron)
            minute += 60
        self.now = max(self.now, at)

    def noted(self, entry):
        self.has_notes = True
        if entry["note"] == "calm" and self.calm is None:
            self.calm = entry["at"]
        elif entry["note"] == "storm" and self.calm is not None:
            self.calms.append((self.calm, entry["at"]))
            self.calm = None

    def see(self, entry):
        self.counts["requests"] += 1
        if is_replica(entry["who"]):
            self.counts["requests of replicas"] += 1
            if entry["id"] is not None and (entry["who"], entry["id"]) in self.requests:
                self.tell("twice", f"{entry['who']} {entry['method']} {entry['path']}")
            self.requests.add((entry["who"], entry["id"]))
        before, after = entry.get("before"), entry.get("after")
        if before is None and after is None or before and after and same_version(before, after):
            return
        kind = (after or before).get("kind")
        if kind == "CronJob":
            self.see_cron(entry, before, after)
        elif kind == "Job":
            self.see_job(entry, before, after)

    # ---- CronJobs

    def see_cron(self, entry, before, after):
        uid = uid_of(after or before)
        if before is None:
            self.crons[uid] = Cron(after, self.now)
        cron = self.crons[uid]
        if after is None:
            cron.gone = self.now
        else:
            if before is not None:
                self.see_status(entry, cron, before, after)
            cron.item = after
            cron.deadlines.append(after["spec"].get("startingDeadlineSeconds"))
        self.look(cron)

    def see_success(self, entry, cron, old, new):
        """A write of the time at which a Job succeeded last."""
        was, now = old.get("lastSuccessfulTime"), new.get("lastSuccessfulTime")
        if was == now or not is_replica(entry["who"]):
            return
        what = f"{key_of(cron.item)} {now}, and {was} before, by {entry['who']}"
        if now is None or was is not None and second_of(now) < second_of(was):
            self.tell("backward", what)
        elif now not in {success_of(job.item) for job in cron.jobs.values()}:
            self.tell("untrue", what)

    def see_status(self, entry, cron, before, after):
        old, new = before.get("status") or {}, after.get("status") or {}
        self.see_success(entry, cron, old, new)
        last = new.get("lastScheduleTime")
        if last == old.get("lastScheduleTime"):
            return
        if not is_replica(entry["who"]):
            return
        known = {it.get("uid") or it.get("name") for it in old.get("active") or []}
        fresh = [it for it in new.get("active") or [] if (it.get("uid") or it["name"]) not in known]
        at = second_of(last) if last else 0
        if cron.claims and at <= cron.claims[-1].time:
            self.tell("falling", f"{key_of(after)} {text_of(at)} by {entry['who']}")
        is_past = cron.made < at <= self.now + SKEW
        if not is_past or not is_due(cron.item["spec"]["schedule"], at):
            self.tell("undue", f"{key_of(after)} {text_of(at)} by {entry['who']}")
        claim = Claim(self.now, at, cron, fresh[0] if fresh else {})
        cron.claims.append(claim)
        self.counts["claims"] += 1
        job = self.by_uid.get(claim.ref.get("uid"))
        if job is not None:
            job.claim = claim
            self.compare(claim, job)

    def look(self, cron):
        """Notes what a CronJob owes from now on."""
        if cron.owed and cron.owed[-1][2] is None:
            start, due, _, until = cron.owed[-1]
            end = self.now if until is None else min(until, self.now)
            cron.owed[-1] = (start, due, max(start, end), until)
        owes = cron.owes(self.now)
        if owes:
            due, until = owes
            cron.owed.append((self.now, due, None, until))

    # ---- Jobs

    def see_job(self, entry, before, after):
        uid = uid_of(after or before)
        if before is None:
            self.by_uid[uid] = Job(after, entry)
            cron = self.crons.get(self.by_uid[uid].owner)
            if cron is not None:
                cron.jobs[uid] = self.by_uid[uid]
        job = self.by_uid[uid]
        was_held = before is None or holds(before)
        cron = self.crons.get(job.owner)
        if job.runs() and not is_leaving(job.item) and is_replica(entry["who"]):
            if after is None or is_leaving(after):
                self.takes(entry, cron, job)
        if after is None:
            job.gone, job.deleted_by = self.now, job.deleted_by or entry["who"]
        else:
            if is_leaving(after) and not is_leaving(job.item):
                job.deleted_by = entry["who"]
            job.item = after
            if was_held and not holds(after) and not is_leaving(after):
                self.begins(entry, job)
        if cron is not None:
            self.look(cron)

    def begins(self, entry, job):
        """A Job begins to run."""
        key, cron = key_of(job.item), self.crons.get(job.owner)
        by_replica = is_replica(entry["who"])
        if job.claim is None and (by_replica or job.by_replica):
            self.tell("unclaimed", f"{key} by {entry['who']}")
        if job.ran is not None:
            self.tell("double", f"{key} ran twice")
        if cron is not None and (job.claim or job.by_replica):
            at = job.claim.time if job.claim else job.time
            self.ran[uid_of(cron.item), at].add(uid_of(job.item))
            if len(self.ran[uid_of(cron.item), at]) == 2:
                self.tell("double", f"{key} for {text_of(at or 0)}")
            self.beside(key, cron, job)
        job.ran = self.now
        if job.claim:
            self.counts["starts"] += 1
            self.delays.append(self.now - job.claim.time)
            wanted = job.claim.spec["jobTemplate"]["spec"]
            for field, usual in (("suspend", False), ("parallelism", 1)):
                if job.item["spec"].get(field, usual) != wanted.get(field, usual):
                    self.tell("unlike", f"{key} started with another {field}")

    def takes(self, entry, cron, job):
        """A replica deletes a Job that runs."""
        claims = cron.claims if cron is not None and job.claim else []
        if not any(it.policy == "Replace" and it.time > job.claim.time for it in claims):
            self.tell("taken", f"{key_of(job.item)} by {entry['who']}")

    def beside(self, key, cron, job):
        policy = job.claim.policy if job.claim else None
        for other in cron.jobs.values():
            if other is job or not other.runs() or not (other.claim or other.by_replica):
                continue
            if policy == "Forbid" or policy == "Replace" and not is_leaving(other.item):
                self.tell("overlap", f"{key} beside {key_of(other.item)}, {policy}")
                return

    def compare(self, claim, job):
        """Whether a claimed Job is what its CronJob says at the claim."""
        template, item, key = claim.spec["jobTemplate"], job.item, key_of(job.item)
        wanted, spec = template["spec"], item["spec"]
        for field in set(wanted) | set(spec) - ADDED:
            if field in ("suspend", "parallelism", "template", "completions"):
                continue
            if wanted.get(field) != spec.get(field):
                self.tell("unlike", f"{key} has another spec.{field}")
        usual = None if "parallelism" in wanted else 1
        if wanted.get("completions", usual) != spec.get("completions"):
            self.tell("unlike", f"{key} has another spec.completions")
        if wanted["template"]["spec"] != spec["template"]["spec"]:
            self.tell("unlike", f"{key} has another Pod template")
        for part in ("labels", "annotations"):
            inner, own = (template.get("metadata") or {}).get(part), item["metadata"].get(
                part
            ) or {}
            if any(own.get(name) != value for name, value in (inner or {}).items()):
                self.tell("unlike", f"{key} has other {part}")
        said = (item["metadata"].get("annotations") or {}).get(POLICY)
        if said not in (None, claim.policy):
            self.tell("unlike", f"{key} was claimed under {claim.policy}, and says {said}")
        if job.time not in (None, claim.time):
            self.tell("unlike", f"{key} was claimed for another time")

    # ---- the end

    def close(self, log):
        if self.calm is not None or not self.has_notes:
            self.calms.append((self.calm or (log[0]["at"] if log else 0), self.now))
        for cron in self.crons.values():
            self.look(cron)
            self.find_missing(cron)
            for claim in cron.claims:
                self.find_unstarted(cron, claim)
            if cron.gone is None:
                self.find_garbage(cron)
                self.find_unsaid(cron)
            elif cron.gone + QUIET < self.now:
                # (of a CronJob that was deleted with propagationPolicy Orphan: nobody's)
                left = [it for it in cron.jobs.values() if it.by_replica and it.gone is None]
                self.counts["held and orphaned"] += sum(holds(it.item) for it in left)

    def find_missing(self, cron):
        """Joins what was owed without a break, and looks for a calm minute of it."""
        spans = []
        for start, due, end, _ in cron.owed:
            end = self.now if end is None else end
            if spans and spans[-1][1] == start:
                spans[-1] = (spans[-1][0], end, spans[-1][2])
            else:
                spans.append((start, end, due))
        for start, end, due in spans:
            for first, last in self.calms:
                if min(end, last) - max(start, first) > QUIET:
                    what = f"{key_of(cron.item)} {text_of(due)}, owed to {text_of(end)}"
                    self.tell("missing", what)
                    break

    def find_unstarted(self, cron, claim):
        key, job = key_of(cron.item), self.by_uid.get(claim.ref.get("uid"))
        if job is None and self.ran.get((uid_of(cron.item), claim.time)):
            return
        if job is not None and job.ran is not None:
            return
        is_quiet = claim.at + QUIET < self.now
        if job is None or job.gone is None and not is_leaving(job.item):
            if is_quiet and cron.gone is None:
                self.tell("unstarted", f"{key} {text_of(claim.time)}")
        elif is_replica(job.deleted_by or ""):
            left = job.gone or self.now
            deadlines = [it for it in cron.deadlines if it is not None]
            if not any(claim.time + it < left for it in deadlines):
                self.tell("lost", f"{key} {text_of(claim.time)} by {job.deleted_by}")

    def find_unsaid(self, cron):
        """At rest the status says when a Job succeeded last, as far as a replica could see it."""
        said = (cron.item.get("status") or {}).get("lastSuccessfulTime")
        if cron.item.get("apiVersion") != "batch/v1" or is_leaving(cron.item):
            return
        for job in cron.jobs.values():
            ended = success_of(job.item)
            if ended is None or second_of(ended) + QUIET > self.now:
                continue
            if job.gone is not None and not is_replica(job.deleted_by or ""):
                continue
            if said is None or second_of(said) < second_of(ended):
                self.tell("unsaid", f"{key_of(job.item)} {ended}, and the status has {said}")

    def find_garbage(self, cron):
        active = {it.get("uid") for it in (cron.item.get("status") or {}).get("active") or []}
        for uid, job in cron.jobs.items():
            stands = job.gone is None and not is_leaving(job.item) and holds(job.item)
            if not stands or not job.by_replica or uid in active or job.time is None:
                continue
            passed = [claim.at for claim in cron.claims if claim.time >= job.time]
            if job.time > cron.last():
                self.counts["held for a time to come"] += 1
            elif max([job.made, *passed[:1]]) + QUIET < self.now:
                self.tell("garbage", key_of(job.item))


def main():
    if len(sys.argv) != 2:
        sys.exit(__doc__)
    with open(sys.argv[1]) as file:
        log = [json.loads(line) for line in file]
    checker = Checker()
    for kind, text in checker.check(log):
        print(f"{kind}: {text}")
    print(", ".join(f"{name} {count}" for name, count in sorted(checker.counts.items())))
    sys.exit(bool(checker.found))


if __name__ == "__main__":
    main()
