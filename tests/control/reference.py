#!/usr/bin/env python3
"""A stand-in for `cronsim control`, to try the test bench with: it speaks the same lines, and
follows the fenced start as plainly as can be. It is no product: no zones, few faults, no limits.

usage: tests/control/reference.py control [--break NAME] [--replica NAME] [--api-version VERSION]

With --break it does one thing otherwise, which the bench has to find out:

    late       claims a time, then creates its Job, by name
    alone      doesn't help: what others claimed stays held
    drops      helps under Replace without the deletions
    version    claims on any version
    name       starts by the name of the Job, whatever its uid
    started    creates the Job started, then claims it
    adopts     adopts a held Job of another policy or template
    active     leaves the claimed Job out of status.active
    garbage    deletes held Jobs of times that are still to come, too
    cache      believes a cache that a Job is held (in 200 scenarios not found out: it takes a
               watch that is a minute behind, an edit of the policy and a long Job at once)
    beside     starts beside what runs, under Forbid too
    drags      deletes nothing under Replace
    forgets    leaves every second time out
    waits      waits where the name of its Job is taken by one that is being deleted, or by one of
               a stranger that says that it is of this CronJob and time
    believes   takes what a proxy answers by itself for an answer of the API server
    blind      starts a Job as its own server's version holds Jobs, whatever the Job says
    follows    asks for references of status.active that name no Job
    silent     leaves status.lastSuccessfulTime as it is
    returns    writes there what the latest Jobs say, though a later one was there
"""
import hashlib
import json
import re
import sys
import time
from calendar import timegm
from functools import lru_cache

MERGE, JSON_PATCH = "application/merge-patch+json", "application/json-patch+json"
TIME = "batch.kubernetes.io/cronjob-scheduled-timestamp"
POLICY, TEMPLATE, HELD = "cronsim/policy", "cronsim/template", "cronsim/held"
BREAKS = "late alone drops version name started adopts active garbage cache beside drags".split()
BREAKS += "forgets waits believes blind follows silent returns".split()
HELP_AFTER, SOON, WORKERS = 3, 0.3, 8
NAME = re.compile(r"[a-z0-9]([-a-z0-9]*[a-z0-9])?(\.[a-z0-9]([-a-z0-9]*[a-z0-9])?)*")
# What the annotation of a held Job says: how it is held, or what earlier versions wrote.
HOLDS = ("suspend", "parallelism", "true")
USUAL = {"suspend": False, "parallelism": 1}


def text_of(at):
    return time.strftime("%Y-%m-%dT%H:%M:%SZ", time.gmtime(at))


@lru_cache(4096)
def second_of(text):
    return timegm(tuple(map(int, re.split("[-T:]", text[:19]))))


# ---- schedules


def numbers(field, low, high):
    found = set()
    for part in field.split(","):
        span, _, step = part.partition("/")
        first, _, last = span.partition("-")
        low_end = low if span in "*?" else int(first)
        high_end = high if span in "*?" or step and not last else int(last or first)
        found.update(range(low_end, high_end + 1, int(step or 1)))
    return found


class Schedule:
    def __init__(self, text):
        fields = text.split()
        spans = ((0, 59), (0, 23), (1, 31), (1, 12), (0, 6))
        self.sets = [numbers(it, *span) for it, span in zip(fields, spans)]
        self.both = "*" in (fields[2], fields[4])

    def is_due(self, at):
        minutes, hours, days, months, weekdays = self.sets
        shown = time.gmtime(at)
        if shown.tm_min not in minutes or shown.tm_hour not in hours or shown.tm_mon not in months:
            return False
        day, weekday = shown.tm_mday in days, (shown.tm_wday + 1) % 7 in weekdays
        return day and weekday if self.both else day or weekday

    def last(self, after, upto):
        """The latest due time later than one moment and not later than another."""
        at = int(upto) // 60 * 60
        while at > after:
            if self.is_due(at):
                return at
            at -= 60
        return None

    def next(self, after):
        first = int(after) // 60 * 60 + 60
        return next((it for it in range(first, first + 60 * 10000, 60) if self.is_due(it)), None)


# ---- objects


def key_of(item):
    return item["metadata"]["namespace"], item["metadata"]["name"]


def said(item, name):
    return (item["metadata"].get("annotations") or {}).get(name)


def controller(job):
    return next(
        (it for it in job["metadata"].get("ownerReferences") or [] if it.get("controller")), {}
    )


def is_held(job):
    return said(job, HELD) in HOLDS


def names_a_job(ref):
    name = ref.get("name") or ""
    return len(name) <= 253 and NAME.fullmatch(name) is not None


def is_finished(job):
    conditions = (job.get("status") or {}).get("conditions") or []
    return any(it["type"] in ("Complete", "Failed") and it["status"] == "True" for it in conditions)


def is_dead(job):
    return is_finished(job) or is_held(job) and "deletionTimestamp" in job["metadata"]


def has_succeeded(job):
    conditions = (job.get("status") or {}).get("conditions") or []
    return any(it["type"] == "Complete" and it["status"] == "True" for it in conditions)


# ---- what answers prove


def meta_of(answer):
    body = answer.get("body")
    return (body.get("metadata") or {}) if isinstance(body, dict) else {}


def status_of(answer):
    """The Status that an answer is, or an empty one."""
    body = answer.get("body")
    return body if isinstance(body, dict) and body.get("kind") == "Status" else {}


def is_missing(answer, resource, name):
    """Whether a server says that the object isn't there."""
    found, wanted = status_of(answer), {"name": name, "kind": resource}
    about = {it: (found.get("details") or {}).get(it) for it in wanted}
    return answer.get("status") == 404 and found.get("reason") == "NotFound" and about == wanted


def is_found(answer, name):
    return answer.get("status") == 200 and meta_of(answer).get("name") == name


def is_list(answer):
    body = answer.get("body")
    return answer.get("status") == 200 and isinstance(body, dict) and "items" in body


def is_refused(answer):
    return answer.get("status") in (403, 404, 409, 422) and bool(status_of(answer))


def is_written(answer, uid):
    meta = meta_of(answer)
    return answer.get("status") == 200 and meta.get("uid") == uid and "resourceVersion" in meta


def is_deleted(answer, uid):
    found = status_of(answer)
    said_so = found.get("status") == "Success" and (found.get("details") or {}).get("uid") == uid
    return answer.get("status") in (200, 202) and (said_so or meta_of(answer).get("uid") == uid)


class Over(Exception):
    """The sync ends: the next one, so many seconds later, looks again."""

    def __init__(self, seconds=SOON):
        super().__init__()
        self.seconds = seconds


class Machine:
    """One line in, lines out."""

    def __init__(self, broken="", replica="", api="batch/v1", tell=lambda text: None):
        self.broken, self.replica, self.api, self.tell = broken, replica, api, tell
        self.now, self.number, self.stopping, self.holds_by = None, 0, False, "suspend"
        self.waiting, self.out, self.starts = {}, [], 0
        self.mirrors = {"cronjobs": {}, "jobs": {}}
        self.synced, self.due, self.busy, self.dirty, self.seen = set(), {}, set(), set(), {}

    # ---- lines

    def feed(self, line):
        """What it says to a line."""
        self.out = []
        told = json.loads(line)
        if "now" in told:
            self.tick(told["now"])
        elif "stop" in told:
            self.stopping = True
        elif told.get("id") in self.waiting:
            self.answered(told)
        return self.out

    def is_done(self):
        return self.stopping and all(idle for _, idle, _ in self.waiting.values())

    def ask(self, method, path, body=None, kind=None):
        self.number += 1
        line = {"id": self.number, "method": method, "path": path}
        if body is not None:
            line |= {"contentType": kind or "application/json", "body": body}
        self.out.append(json.dumps(line))
        return self.number

    def run(self, task, answer=None):
        """Goes on with a task up to its next request."""
        try:
            asked = task.send(answer)
        except StopIteration:
            return
        if asked[0] == "sleep":
            # (the transport isn't asked: the tick goes on with it)
            self.waiting[f"sleep {self.number} {id(task)}"] = (task, True, self.now + asked[1])
            return
        watch = "watch=1" in asked[1]
        self.waiting[self.ask(*asked)] = (task, watch, None)

    def answered(self, told):
        task, watch, _ = self.waiting[told["id"]]
        if "event" in told:
            task.send(told)
            return
        del self.waiting[told["id"]]
        if not self.stopping:
            self.run(task, told)

    def tick(self, text):
        is_first = self.now is None
        self.now = second_of(text[:19]) + float("0" + text[19:-1])
        if is_first:
            self.run(self.begin())
        for number, (task, _, at) in list(self.waiting.items()):
            if at is not None and at <= self.now and not self.stopping:
                del self.waiting[number]
                self.run(task)
        if len(self.synced) == 2 and not self.stopping:
            ready = [key for key, at in self.due.items() if at <= self.now and key not in self.busy]
            for key in ready[: max(0, WORKERS - len(self.busy))]:
                del self.due[key]
                self.busy.add(key)
                self.run(self.work(key))

    # ---- lists and watches

    def begin(self):
        answer = yield "GET", "/version"
        while answer.get("status") != 200 or "minor" not in (answer.get("body") or {}):
            yield "sleep", 1
            answer = yield "GET", "/version"
        minor = int(answer["body"]["minor"].rstrip("+"))
        self.holds_by = "suspend" if minor >= 24 else "parallelism"
        self.run(self.follow("cronjobs", self.api))
        self.run(self.follow("jobs", "batch/v1"))

    def follow(self, resource, api):
        while True:
            found, path, limit = {}, f"/apis/{api}/{resource}?limit=", 500
            more, version = "", None
            while more is not None:
                answer = yield "GET", f"{path}{limit}{more}"
                if answer.get("status") == 413 or "error" in answer:
                    limit = max(1, limit // 4)
                    if "error" in answer:
                        yield "sleep", 1
                    continue
                if not is_list(answer):
                    yield "sleep", 1
                    found, more, limit = {}, "", 500
                    continue
                meta, version = (
                    answer["body"]["metadata"],
                    answer["body"]["metadata"]["resourceVersion"],
                )
                found |= {key_of(it): it for it in answer["body"]["items"]}
                more = f"&continue={meta['continue']}" if meta.get("continue") else None
            gone = set(self.mirrors[resource]) - set(found)
            self.mirrors[resource] = found
            self.synced.add(resource)
            for key in set(found) | gone:
                self.wake(resource, key, found.get(key))
            while version:
                version = yield from self.watch(resource, api, version)

    def watch(self, resource, api, version):
        """Takes the events of one watch; the version to go on from, or none to list anew."""
        path = f"/apis/{api}/{resource}?watch=1&resourceVersion={version}"
        told = yield "GET", f"{path}&allowWatchBookmarks=true&timeoutSeconds=300"
        while "event" in told:
            what, item = told["event"]["type"], told["event"]["object"]
            if what == "ERROR":
                while "event" in told:
                    told = yield
                return None
            version = item["metadata"]["resourceVersion"]
            if what == "DELETED":
                self.mirrors[resource].pop(key_of(item), None)
            elif what != "BOOKMARK":
                self.mirrors[resource][key_of(item)] = item
            if what != "BOOKMARK":
                self.wake(resource, key_of(item), item)
            told = yield
        if told.get("status") == 410:
            return None
        if told.get("status") != 200:
            yield "sleep", 1
        return version

    def wake(self, resource, key, item):
        if resource == "jobs":
            owner = controller(item) if item else {}
            if owner.get("kind") != "CronJob":
                return
            key = (key[0], owner["name"])
        self.add(key, SOON)

    def add(self, key, seconds):
        if key in self.busy:
            self.dirty.add(key)
        else:
            self.due[key] = min(self.due.get(key, self.now + seconds), self.now + seconds)

    # ---- a sync

    def work(self, key):
        again = None
        try:
            again = yield from self.sync(key)
        except Over as over:
            again = self.now + over.seconds
        self.busy.discard(key)
        if key in self.dirty:
            self.dirty.discard(key)
            again = min(again or self.now + SOON, self.now + SOON)
        if again is not None:
            self.due[key] = min(self.due.get(key, again), again)

    def rank(self, key):
        text = f"{key} {self.replica}".encode()
        return hashlib.sha256(text).digest()[0] % 3

    def path(self, key, resource="jobs", api="batch/v1"):
        return f"/apis/{api}/namespaces/{key[0]}/{resource}/{key[1]}"

    def sync(self, key):
        cron = self.mirrors["cronjobs"].get(key)
        if cron is None or "deletionTimestamp" in cron["metadata"]:
            return None
        meta, spec, status = cron["metadata"], cron["spec"], cron.get("status") or {}
        known = {"key": key, "uid": meta["uid"], "version": meta["resourceVersion"], "cron": cron}
        known |= {
            "last": second_of(status["lastScheduleTime"]) if "lastScheduleTime" in status else 0
        }
        known |= {"active": status.get("active") or []}
        alive, held = yield from self.look(known)
        if held:
            yield from self.help(known, alive, held)
            raise Over(0)
        schedule = Schedule(spec["schedule"])
        after = max(known["last"], second_of(meta["creationTimestamp"]))
        deadline = spec.get("startingDeadlineSeconds")
        if deadline is not None:
            after = max(after, self.now - deadline)
        at = None if spec.get("suspend") else schedule.last(after, self.now)
        if at and self.broken == "forgets" and at // 60 % 2:
            at = None
        forbids = spec["concurrencyPolicy"] == "Forbid" and self.broken != "beside"
        if at and not (forbids and alive):
            if self.broken == "late":
                yield from self.claim_then_create(known, alive, at)
            else:
                job = yield from self.hold(known, at)
                yield from self.claim(known, alive, job)
                replaces = spec["concurrencyPolicy"] == "Replace"
                yield from self.drop(key, alive if replaces else [])
                yield from self.start(known, job)
            alive = known["active"]
        yield from self.tidy(known, alive + known.get("passed by", []))
        coming = schedule.next(max(self.now, known["last"]))
        return coming and coming + self.rank(key)

    def look(self, known):
        """What of status.active runs, and what is held."""
        alive, held = [], None
        for ref in known["active"]:
            if self.broken != "follows" and not names_a_job(ref):
                continue
            key = (known["key"][0], ref.get("name") or "")
            job = self.mirrors["jobs"].get(key)
            is_settled = job and (is_dead(job) or not is_held(job) or self.broken == "cache")
            if not is_settled or job["metadata"]["uid"] != ref.get("uid"):
                answer = yield "GET", self.path(key)
                if self.broken == "believes" and answer.get("status") == 404:
                    continue
                if is_missing(answer, "jobs", key[1]):
                    continue
                if not is_found(answer, key[1]):
                    raise Over(1)
                job = answer["body"]
            if job["metadata"]["uid"] != ref.get("uid", job["metadata"]["uid"]) or is_dead(job):
                continue
            if not is_held(job):
                alive.append(ref)
            elif self.broken == "alone":
                known.setdefault("passed by", []).append(ref)
            else:
                held = job
        return alive, held

    def help(self, known, alive, job):
        uid = job["metadata"]["uid"]
        first = self.seen.setdefault(uid, self.now)
        if self.now < first + HELP_AFTER:
            raise Over(first + HELP_AFTER - self.now)
        deadline = known["cron"]["spec"].get("startingDeadlineSeconds")
        if deadline is not None and second_of(said(job, TIME)) + deadline < self.now:
            yield from self.delete(key_of(job), uid, job["metadata"]["resourceVersion"])
            return
        replaces = said(job, POLICY) == "Replace" and self.broken != "drops"
        yield from self.drop(known["key"], alive if replaces else [])
        yield from self.start(known, job)

    def delete(self, key, uid, version=None):
        wanted = {"uid": uid, "resourceVersion": version}
        wanted = {name: value for name, value in wanted.items() if value}
        body = {"preconditions": wanted, "propagationPolicy": "Background"}
        answer = yield "DELETE", self.path(key), body
        if not is_deleted(answer, uid) and not is_refused(answer):
            raise Over(1)

    def drop(self, key, refs):
        for ref in [] if self.broken == "drags" else refs:
            yield from self.delete((key[0], ref["name"]), ref.get("uid"))

    # ---- hold, claim, start

    def draft(self, known, at, name, held=True):
        """The Job of a time: held, or started (which only broken ones make)."""
        meta, spec = known["cron"]["metadata"], known["cron"]["spec"]
        template = spec["jobTemplate"]
        inner = template.get("metadata") or {}
        notes = dict(inner.get("annotations") or {})
        notes |= {TIME: text_of(at), POLICY: spec["concurrencyPolicy"], TEMPLATE: digest(template)}
        job = dict(template["spec"])
        if held:
            notes[HELD] = self.holds_by
            if self.holds_by == "suspend":
                job["suspend"] = True
            else:
                if "parallelism" not in job and "completions" not in job:
                    job["completions"] = 1
                job["parallelism"] = 0
        labels = (inner.get("labels") or {}) | {"cronsim/uid": meta["uid"]}
        owner = {
            "apiVersion": self.api,
            "kind": "CronJob",
            "name": meta["name"],
            "uid": meta["uid"],
        }
        owner |= {"controller": True, "blockOwnerDeletion": True}
        found = {"name": name, "namespace": meta["namespace"], "labels": labels}
        found |= {"annotations": notes, "ownerReferences": [owner]}
        return {"apiVersion": "batch/v1", "kind": "Job", "metadata": found, "spec": job}

    def hold(self, known, at):
        meta, spec = known["cron"]["metadata"], known["cron"]["spec"]
        template = spec["jobTemplate"]
        name = f"{meta['name']}-{at // 60}"
        mark = digest([spec["concurrencyPolicy"], template, meta["uid"]])[:6]
        for name in (name, f"{name}-{mark}"):
            draft = self.draft(known, at, name, self.broken != "started")
            jobs = f"/apis/batch/v1/namespaces/{meta['namespace']}/jobs"
            answer = yield "POST", jobs, draft
            if answer.get("status") == 201 and meta_of(answer).get("name") == name:
                return answer["body"]
            if status_of(answer).get("reason") != "AlreadyExists":
                raise Over(1)
            answer = yield "GET", self.path((meta["namespace"], name))
            if not is_found(answer, name):
                raise Over(SOON)
            job = answer["body"]
            if "deletionTimestamp" in job["metadata"]:
                if self.broken == "waits":
                    raise Over(2)
                continue
            is_ours = controller(job).get("uid") == meta["uid"] and said(job, TIME) == text_of(at)
            if is_ours and is_held(job) and not is_finished(job):
                same = said(job, POLICY) == spec["concurrencyPolicy"]
                same = same and said(job, TEMPLATE) == digest(template)
                if same or self.broken == "adopts":
                    return job
            elif is_ours:
                yield from self.look_again(known)
        raise Over(2)

    def look_again(self, known):
        """Of a Job of the time that isn't held: the time was claimed, and what was read is old; or
        nothing has changed, and it is a stranger's."""
        answer = yield "GET", self.path(known["key"], "cronjobs", self.api)
        version = meta_of(answer).get("resourceVersion")
        if version != known["version"] or self.broken == "waits":
            raise Over(1)

    def claim(self, known, alive, job):
        meta = job["metadata"]
        ref = {"apiVersion": "batch/v1", "kind": "Job", "name": meta["name"]}
        ref |= {"namespace": meta["namespace"]} | ({"uid": meta["uid"]} if "uid" in meta else {})
        active = alive + known.get("passed by", []) + ([] if self.broken == "active" else [ref])
        wanted = {"uid": known["uid"], "resourceVersion": known["version"]}
        if self.broken == "version":
            del wanted["resourceVersion"]
        status = {"lastScheduleTime": said(job, TIME), "active": active}
        status |= self.success(known)
        path = self.path(known["key"], "cronjobs", self.api) + "/status"
        answer = yield "PATCH", path, {"metadata": wanted, "status": status}, MERGE
        if not is_written(answer, known["uid"]):
            raise Over(SOON if is_refused(answer) else 1)
        known["version"] = meta_of(answer)["resourceVersion"]
        known["cron"] = known["cron"] | {"status": answer["body"].get("status") or {}}
        known["last"], known["active"] = second_of(said(job, TIME)), active
        known["passed by"] = []

    def start(self, known, job):
        if self.broken == "started":
            return
        meta, wanted = job["metadata"], known["cron"]["spec"]["jobTemplate"]["spec"]
        mark = "/metadata/annotations/cronsim~1held"
        tests = [{"op": "test", "path": "/metadata/uid", "value": meta["uid"]}]
        held_by = said(job, HELD)
        tests += [{"op": "test", "path": mark, "value": held_by}]
        if self.broken == "name":
            tests = []
        body = tests + [{"op": "remove", "path": mark}]
        held_by = self.holds_by if self.broken == "blind" else held_by
        for field in USUAL if held_by == "true" else (held_by,):
            value = wanted.get(field, USUAL[field])
            body.append({"op": "add", "path": f"/spec/{field}", "value": value})
        answer = yield "PATCH", self.path(key_of(job)), body, JSON_PATCH
        if not is_written(answer, meta["uid"]):
            raise Over(SOON if is_refused(answer) else 1)
        self.starts += 1
        self.tell(f"start {'/'.join(key_of(job))} {said(job, TIME)}")

    def claim_then_create(self, known, alive, at):
        """The naive way."""
        name = f"{known['key'][1]}-{at // 60}"
        draft = self.draft(known, at, name, held=False)
        yield from self.claim(known, alive, draft)
        replaces = known["cron"]["spec"]["concurrencyPolicy"] == "Replace"
        yield from self.drop(known["key"], alive if replaces else [])
        jobs = f"/apis/batch/v1/namespaces/{known['key'][0]}/jobs"
        answer = yield "POST", jobs, draft
        if answer.get("status") != 201:
            raise Over(1)

    # ---- the end of a sync

    def success(self, known):
        """What a status has to say anew of the last Job that succeeded."""
        if self.api != "batch/v1" or self.broken == "silent":
            return {}
        own = [
            it for it in self.mirrors["jobs"].values() if controller(it).get("uid") == known["uid"]
        ]
        ends = [it["status"].get("completionTime") for it in own if has_succeeded(it)]
        latest = max(filter(None, ends), default=None)
        was = (known["cron"].get("status") or {}).get("lastSuccessfulTime")
        if latest is None or was == latest:
            return {}
        if was is not None and second_of(latest) <= second_of(was) and self.broken != "returns":
            return {}
        return {"lastSuccessfulTime": latest}

    def tidy(self, known, alive):
        """Writes the status without the dead, and removes garbage and old Jobs."""
        spec, key = known["cron"]["spec"], known["key"]
        names, success = {it.get("uid") for it in known["active"]}, self.success(known)
        if alive != known["active"] or success:
            wanted = {"uid": known["uid"], "resourceVersion": known["version"]}
            body = {"metadata": wanted, "status": {"active": alive or None} | success}
            path = self.path(key, "cronjobs", self.api) + "/status"
            answer = yield "PATCH", path, body, MERGE
            if not is_written(answer, known["uid"]):
                raise Over(SOON if is_refused(answer) else 1)
        own = [
            it for it in self.mirrors["jobs"].values() if controller(it).get("uid") == known["uid"]
        ]
        for job in own:
            past = second_of(said(job, TIME) or "1970-01-01T00:00:00Z") <= known["last"]
            if self.broken == "garbage" or past:
                if is_held(job) and job["metadata"]["uid"] not in names:
                    yield from self.delete(key_of(job), job["metadata"]["uid"])
        for outcome, limit in (("Complete", "successful"), ("Failed", "failed")):
            ended = [it for it in own if is_finished(it) and outcome in outcomes(it)]
            ended.sort(key=lambda it: (it["metadata"]["creationTimestamp"], it["metadata"]["name"]))
            for job in ended[: max(0, len(ended) - spec[f"{limit}JobsHistoryLimit"])]:
                yield from self.delete(key_of(job), job["metadata"]["uid"])


def outcomes(job):
    return [it["type"] for it in job["status"]["conditions"] if it["status"] == "True"]


def digest(value):
    return hashlib.sha256(json.dumps(value, sort_keys=True).encode()).hexdigest()[:12]


def tell_people(text):
    print(text, file=sys.stderr, flush=True)


def main():
    words = sys.argv[1:]
    options = {name: words[words.index(name) + 1] for name in words if name.startswith("--")}
    broken = options.get("--break", "")
    if words[:1] != ["control"] or broken and broken not in BREAKS:
        sys.exit(__doc__)
    api = options.get("--api-version", "batch/v1")
    machine = Machine(broken, options.get("--replica", ""), api, tell_people)
    for line in sys.stdin:
        out = machine.feed(line)
        if out:
            sys.stdout.write("".join(it + "\n" for it in out))
            sys.stdout.flush()
        if machine.is_done():
            break


if __name__ == "__main__":
    main()
