"""Stands in for the kubelet, the Job controller and the garbage collector: a Job that isn't held
gets a startTime, and after its run time the condition Complete, or now and then Failed. Its
annotation test/run has the least and the most seconds: `5-150`. A held Job isn't touched. Jobs
whose CronJob is gone are deleted.
"""
import heapq
import random
import threading
import time
from concurrent.futures import ThreadPoolExecutor
from itertools import count

from .api import MERGE
from .observer import is_finished, is_held

RUN = "test/run"
FAILED = 0.1
WORKERS, AGAIN = 4, 5


def stamp():
    return time.strftime("%Y-%m-%dT%H:%M:%SZ", time.gmtime())


def seconds_of(job):
    """How long a Job runs, which its uid decides."""
    least, most = (job["metadata"].get("annotations") or {}).get(RUN, "5-20").split("-")
    return random.Random(job["metadata"]["uid"]).uniform(float(least), float(most))


class Runner:
    """Does what is due, each at its time."""

    def __init__(self, api, observer):
        self.api, self.observer = api, observer
        self.waiting, self.numbers, self.wakes = [], count(), threading.Condition()
        self.pool, self.begun = ThreadPoolExecutor(WORKERS), set()
        observer.listeners.append(self.see)
        threading.Thread(target=self.run, daemon=True).start()

    def later(self, seconds, *work):
        with self.wakes:
            heapq.heappush(self.waiting, (time.time() + seconds, next(self.numbers), work))
            self.wakes.notify()

    def run(self):
        while True:
            with self.wakes:
                while not self.waiting or self.waiting[0][0] > time.time():
                    rest = self.waiting[0][0] - time.time() if self.waiting else None
                    self.wakes.wait(rest)
                work = heapq.heappop(self.waiting)[2]
            try:
                self.pool.submit(self.do, *work)
            except RuntimeError:
                # (the test is over)
                return

    def do(self, act, *given):
        try:
            act(*given)
        except Exception as fault:
            self.observer.note("trouble", fault=f"{act.__name__}: {fault}"[:200])
            self.later(AGAIN, act, *given)

    def see(self, resource, kind, item):
        uid = item["metadata"]["uid"]
        if resource == "cronjobs":
            if kind in ("DELETED", "GONE"):
                for job in self.observer.all("jobs"):
                    self.later(random.uniform(0, 2), self.collect, job["metadata"]["uid"])
        elif kind not in ("DELETED", "GONE"):
            if kind == "ADDED":
                # (its CronJob may be gone already)
                self.later(3, self.collect, uid)
            if uid not in self.begun and not is_held(item) and not is_finished(item):
                self.begun.add(uid)
                self.later(0, self.begin, uid)

    def patch(self, job, status):
        meta = job["metadata"]
        path = self.api.path(meta["namespace"], "jobs", meta["name"]) + "/status"
        self.api.call("PATCH", path, {"metadata": {"uid": meta["uid"]}, "status": status}, MERGE)

    def begin(self, uid):
        job = self.observer.standing("jobs", uid)
        if job:
            self.later(seconds_of(job), self.end, uid)
            self.patch(job, {"startTime": stamp(), "active": 1})

    def end(self, uid):
        job = self.observer.standing("jobs", uid)
        if not job or is_held(job) or is_finished(job):
            return
        has_failed = random.Random(uid + "outcome").random() < FAILED
        condition = {"type": "Failed" if has_failed else "Complete", "status": "True"}
        times = {"lastProbeTime": stamp(), "lastTransitionTime": stamp()}
        status = {"active": None, "conditions": [condition | times]}
        status |= {"failed": 1} if has_failed else {"succeeded": 1, "completionTime": stamp()}
        self.patch(job, status)

    def collect(self, uid):
        """Deletes a Job of which every owner is gone."""
        job = self.observer.standing("jobs", uid)
        owners = (job or {"metadata": {}})["metadata"].get("ownerReferences")
        if owners and not any(self.observer.standing("cronjobs", it["uid"]) for it in owners):
            meta = job["metadata"]
            body = {"preconditions": {"uid": uid}, "propagationPolicy": "Background"}
            self.observer.note("collected", uid=uid)
            self.api.call("DELETE", self.api.path(meta["namespace"], "jobs", meta["name"]), body)
