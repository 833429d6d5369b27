"""A Job controller and a garbage collector for the small API server.

A Job that isn't held (spec.suspend isn't true, spec.parallelism isn't 0) begins to run a little
later: it gets status.startTime. It ends after the time that its annotation test/run says, in
seconds and with an outcome: `45`, or `45 Failed`. A held Job is never touched, but that a server
may mark it, as newer ones do (Suspended in status.conditions).

What has the finalizer `orphan` or `foregroundDeletion` is worked off, and a Job whose owners are
all gone is deleted.
"""
import heapq
import random
from itertools import count

from rules import KINDS
from server import MERGE, stamp

RUN = "test/run"
USUAL_RUN = "10"
BACKGROUND = {"propagationPolicy": "Background"}


def is_held(job):
    return job["spec"].get("suspend") is True or job["spec"].get("parallelism") == 0


def is_finished(job):
    conditions = job["status"].get("conditions") or []
    return any(it["type"] in ("Complete", "Failed") and it["status"] == "True" for it in conditions)


class Loop:
    """What is to be done at its time: a function of the objects as they are then."""

    def __init__(self, server, seed=0):
        self.server, self.dice = server, random.Random(seed)
        self.waiting, self.numbers = [], count()
        server.listeners.append(self.see)

    def after(self, seconds, *work):
        at = self.server.clock() + seconds
        heapq.heappush(self.waiting, (at, next(self.numbers), work))

    def next(self):
        """The moment at which there is something to do, or none."""
        return self.waiting[0][0] if self.waiting else None

    def step(self):
        """Does what is due."""
        while self.waiting and self.waiting[0][0] <= self.server.clock():
            _, _, (do, *given) = heapq.heappop(self.waiting)
            do(*given)

    def path(self, resource, key):
        group = self.server.groups[resource]
        return f"/apis/batch/{group}/namespaces/{key[0]}/{resource}/{key[1]}"

    def at(self, resource, key, uid):
        """The object at a key, if it has this uid."""
        item = self.server.objects[resource].get(key)
        return item if item and item["metadata"]["uid"] == uid else None


class JobController(Loop):
    """Begins and ends Jobs that aren't held."""

    # Whether held Jobs get the condition Suspended.
    marks_held = False
    # The longest delay before a Job that isn't held any more begins to run.
    begins_within = 1.0

    def see(self, change):
        job = change.new
        if change.resource != "jobs" or job is None or is_finished(job):
            return
        if "deletionTimestamp" in job["metadata"]:
            return
        uid = job["metadata"]["uid"]
        if is_held(job):
            if self.marks_held and not job["status"].get("conditions"):
                self.after(self.dice.uniform(0, 2), self.mark, change.key, uid)
        elif "startTime" not in job["status"]:
            self.after(self.dice.uniform(0, self.begins_within), self.begin, change.key, uid)

    def write(self, key, job, status):
        path = self.path("jobs", key) + "/status"
        meta = {
            "uid": job["metadata"]["uid"],
            "resourceVersion": job["metadata"]["resourceVersion"],
        }
        self.server.call("PATCH", path, {"metadata": meta, "status": status}, MERGE, who="jobs")

    def mark(self, key, uid):
        job = self.at("jobs", key, uid)
        if job and is_held(job) and not job["status"].get("conditions"):
            now = stamp(self.server.clock())
            found = {"type": "Suspended", "status": "True", "reason": "JobSuspended"}
            self.write(key, job, {"conditions": [found | {"lastTransitionTime": now}]})

    def begin(self, key, uid):
        job = self.at("jobs", key, uid)
        if not job or is_held(job) or is_finished(job) or "startTime" in job["status"]:
            return
        if "deletionTimestamp" in job["metadata"]:
            return
        said = (job["metadata"].get("annotations") or {}).get(RUN, USUAL_RUN).split()
        outcome = said[1] if len(said) > 1 else "Complete"
        self.after(float(said[0]), self.end, key, uid, outcome)
        status = {"startTime": stamp(self.server.clock()), "active": 1, "conditions": None}
        self.write(key, job, status)

    def end(self, key, uid, outcome):
        job = self.at("jobs", key, uid)
        if not job or is_finished(job):
            return
        if is_held(job):
            # (held again by somebody while it ran)
            return
        now = stamp(self.server.clock())
        condition = {"type": outcome, "status": "True", "lastTransitionTime": now}
        status = {"active": None, "conditions": [condition | {"lastProbeTime": now}]}
        if outcome == "Complete":
            status |= {"completionTime": now, "succeeded": 1}
        else:
            status |= {"failed": 1}
        self.write(key, job, status)


class Collector(Loop):
    """The garbage collector."""

    acts_within = 2.0

    def see(self, change):
        if change.resource not in KINDS:
            return
        item = change.new
        if item is None:
            uid = change.shown["metadata"]["uid"]
            self.after(self.dice.uniform(0, self.acts_within), self.take_owned, uid)
        elif "deletionTimestamp" in item["metadata"]:
            uid = item["metadata"]["uid"]
            self.after(
                self.dice.uniform(0, self.acts_within),
                self.release,
                change.resource,
                change.key,
                uid,
            )
        elif change.old is None and item["metadata"].get("ownerReferences"):
            # (its owner may be gone already)
            for owner in item["metadata"]["ownerReferences"]:
                self.after(self.dice.uniform(0, self.acts_within), self.take_owned, owner["uid"])

    def owned(self, uid):
        return [
            (key, job)
            for key, job in list(self.server.objects["jobs"].items())
            if any(it["uid"] == uid for it in job["metadata"].get("ownerReferences") or [])
        ]

    def stands(self, uid):
        crons, jobs = self.server.objects["cronjobs"], self.server.objects["jobs"]
        return any(
            it["metadata"]["uid"] == uid for found in (crons, jobs) for it in list(found.values())
        )

    def take_owned(self, uid):
        """Deletes the Jobs of which every owner is gone."""
        for key, job in self.owned(uid):
            owners = job["metadata"]["ownerReferences"]
            if any(self.stands(it["uid"]) for it in owners):
                continue
            meta = job["metadata"]
            wanted = {"uid": meta["uid"], "resourceVersion": meta["resourceVersion"]}
            body = BACKGROUND | {"preconditions": wanted}
            self.server.call("DELETE", self.path("jobs", key), body, who="gc")

    def release(self, resource, key, uid):
        """Works off the finalizers of the collector."""
        item = self.at(resource, key, uid)
        finalizers = item["metadata"].get("finalizers") or [] if item else []
        if "orphan" in finalizers:
            for owned, job in self.owned(uid):
                kept = [it for it in job["metadata"]["ownerReferences"] if it["uid"] != uid]
                meta = {"uid": job["metadata"]["uid"], "ownerReferences": kept}
                path = self.path("jobs", owned)
                self.server.call("PATCH", path, {"metadata": meta}, MERGE, who="gc")
        elif "foregroundDeletion" in finalizers:
            for owned, job in self.owned(uid):
                body = BACKGROUND | {"preconditions": {"uid": job["metadata"]["uid"]}}
                self.server.call("DELETE", self.path("jobs", owned), body, who="gc")
        else:
            return
        kept = [it for it in finalizers if it not in ("orphan", "foregroundDeletion")]
        meta = {"uid": uid, "finalizers": kept or None}
        self.server.call("PATCH", self.path(resource, key), {"metadata": meta}, MERGE, who="gc")
