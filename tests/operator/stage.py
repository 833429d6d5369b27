"""A replica of `cronsim control` on a stage: the small API server of tests/control, a clock that
the case moves, and a hand of the case between the two. Nothing is disturbed but by the case.

It begins at 2024-01-01T00:00:05Z; the Job of 00:01:00 is NAME-28401121. Requests and answers take
20 ms each at most, or as long as the case says.
"""
import json
import re

from bench import Bench
from replicas import Crashed, Piped
from server import MERGE, stamp

T0 = 1704067200
MINUTES = T0 // 60
TIME = "batch.kubernetes.io/cronjob-scheduled-timestamp"
HEAD = re.compile(r"^\d{4}-\d\d-\d\dT\d\d:\d\d:\d\dZ (info|warning|error) ")
USER, OTHER = "kubectl-edit/v1", "kube-controller-manager/v1.29"
POD = {"spec": {"restartPolicy": "Never", "containers": [{"name": "c", "image": "i"}]}}


class Still:
    """A scenario in which nothing happens by itself."""

    number, is_calm, is_duel, marks_held, tells_date, is_mixed = 0, True, False, False, True, False
    faults = skew = storm = quiet = behind = bursts = kills = stalls = most_items = most_bytes = 0
    start = T0 + 5

    def __init__(self, minor, beta, replicas):
        self.minor, self.beta, self.replicas = minor, beta, replicas

    def minor_for(self, who):
        return self.minor


class Asked:
    """A request: when it went out, what was told of it, and when."""

    def __init__(self, at, request):
        self.at, self.request, self.told, self.heard = at, request, {}, None
        self.method, self.path, self.body = (request.get(it) for it in ("method", "path", "body"))
        self.what = f"{self.method} {self.path.partition('?')[0].partition('/namespaces/')[2]}"

    def status(self):
        return self.told.get("status")


class Stage(Bench):
    """Steps: what is put there, `begin`, `go`, and `end`."""

    program, folder, count, all = None, None, 0, []

    def __init__(self, *words, minor=29, beta=False, replicas=1):
        super().__init__(Still(minor, beta, replicas), self.launched)
        Stage.count += 1
        Stage.all.append(self)
        self.words, self.stop_at, self.ended, self.hands = words, None, None, []
        self.file = self.folder / f"{Stage.count}.stderr"
        self.asked, self.open, self.printed, self.slow = [], {}, [], None

    def launched(self, name, scenario):
        words = [str(self.program), "control", *self.words]
        # (several wait for each other by their names)
        words += ["--replica", name] if scenario.replicas > 1 else []
        words += ["--api-version", "batch/v1beta1"] if scenario.beta else []
        return Piped(words, self.file)

    def begin(self):
        for replica in self.replicas:
            self.begin_life(replica)
        self.later(0, self.tick)

    def run(self, seconds):
        """From the beginning to the end."""
        self.begin()
        self.go(seconds)
        self.end()

    def end(self):
        self.stop()

    def leave(self):
        """What was wrong with its lines and its end; no process is left."""
        for replica in self.replicas:
            if replica.machine is not None:
                self.wrong.append(("end", "still there"))
                replica.machine.kill()
                replica.machine = None
        return self.wrong

    def give_stop(self):
        """It is told to stop, and goes on with what is under way."""
        self.stop_at = self.clock.now
        self.give(self.replicas[0], '{"stop":true}')

    # ---- what is there

    def call(self, method, path, body=None, kind=MERGE, who=USER):
        status, found = self.server.call(method, path, body, kind, who)
        assert status < 300, f"{method} {path}: {found}"
        return found

    def path(self, resource, name="", namespace="n"):
        group = self.server.groups[resource]
        path = f"/apis/batch/{group}/namespaces/{namespace}/{resource}"
        return f"{path}/{name}" if name else path

    def cron(self, name="c", schedule="* * * * *", template=None, **spec):
        """A CronJob of every minute."""
        spec |= {"schedule": schedule, "jobTemplate": template or {"spec": {"template": POD}}}
        body = {"kind": "CronJob", "metadata": {"name": name}, "spec": spec}
        return self.call("POST", self.path("cronjobs"), body)

    def job(self, name, cron=None, notes=None, labels=None, **spec):
        meta = {"name": name, "annotations": notes or {}, "labels": labels or {}}
        if cron is not None:
            owner = {"apiVersion": cron["apiVersion"], "kind": "CronJob", "controller": True}
            owner |= {it: cron["metadata"][it] for it in ("name", "uid")}
            meta["ownerReferences"] = [owner]
        body = {"kind": "Job", "metadata": meta, "spec": spec | {"template": POD}}
        return self.call("POST", self.path("jobs"), body)

    def has_status(self, name, **status):
        """A CronJob has this status, of which no manager is named."""
        old = self.server.objects["cronjobs"]["n", name]
        self.server.put("cronjobs", ("n", name), old, old | {"status": old["status"] | status})

    def is_claimed(self, cron, job):
        """A Job is the one that its CronJob claimed last."""
        name, at = cron["metadata"]["name"], job["metadata"]["annotations"][TIME]
        self.has_status(name, lastScheduleTime=at, active=[ref_of(job)])

    def status(self, name="c"):
        return self.server.objects["cronjobs"]["n", name]["status"]

    def touch(self, name="c"):
        """Somebody writes a CronJob, so that its version rises."""
        meta = {"labels": {"touched": str(self.server.version)}}
        self.call("PATCH", self.path("cronjobs", name), {"metadata": meta})

    # ---- between the replica and the server

    def meddle(self, method, part, answer, times=1 << 30):
        """So many requests of a method with these letters in their path are answered by the case,
        and not carried out. Where it answers none, they are carried out."""
        left = [times]

        def hand(request):
            if left[0] and request["method"] == method and re.search(part, request["path"]):
                left[0] -= 1
                return answer(request) if callable(answer) else answer
            return None

        self.hands.append(hand)
        return lambda: left.__setitem__(0, 0)

    def take(self, replica, text):
        found = json.loads(text)
        if "metrics" in found:
            self.printed.append((self.clock.now, found))
            return
        if "path" in found:
            asked = Asked(self.clock.now, found)
            self.asked.append(asked)
            self.open[replica.number, found.get("id")] = asked
        super().take(replica, text)

    def send(self, replica, request):
        if self.slow is None:
            super().send(replica, request)
            return
        fate = self.plan.fate()._replace(before=self.slow, after=self.slow)
        given = replica, replica.life, replica.who(), request, fate, "passes"
        self.later(fate.before, self.arrive, *given)

    def carried_out(self, request, who):
        for hand in self.hands:
            told = hand(request)
            if told is not None:
                return {"id": request["id"], "date": stamp(self.clock.now)} | told
        return super().carried_out(request, who)

    def answer(self, replica, life, told):
        asked = self.open.get((replica.number, told["id"]))
        if asked is not None and "event" not in told:
            asked.told, asked.heard = told, self.clock.now
        super().answer(replica, life, told)

    def guarded(self, replica, do, *given):
        if self.stop_at is None:
            return super().guarded(replica, do, *given)
        try:
            do(*given)
            return True
        except Crashed as crash:
            self.ended, replica.machine = (str(crash), self.clock.now), None
            return False

    # ---- what is seen

    def of(self, method, part):
        """The requests of a method (or of several, by its beginning) with this in their path."""
        found = [it for it in self.asked if it.method.startswith(method)]
        return [it for it in found if re.search(part, it.path)]

    def after(self, asked):
        """The requests that went out after one."""
        return self.asked[self.asked.index(asked) + 1 :]

    def claims(self, name="c"):
        found = self.of("PATCH", f"/cronjobs/{name}/status")
        return [it for it in found if "lastScheduleTime" in it.body["status"]]

    def events(self, reason):
        """The Events of a reason that the server has."""
        return [it for it in self.server.events.values() if it.get("reason") == reason]

    def starts(self):
        """Each Job that a replica started: its name, and the seconds after its time."""
        found = []
        for it in self.server.log:
            if it["method"] == "PATCH" and it["who"].startswith("cronsim") and it.get("after"):
                meta = it["after"]["metadata"]
                if it["after"]["kind"] == "Job" and it["status"] == 200:
                    late = it["at"] - 60 * int(meta["name"].rpartition("-")[2])
                    found.append((meta["name"], late))
        return found

    def lines(self):
        return self.file.read_text(errors="replace").splitlines()

    def said(self):
        """What people were told, without the time and the level."""
        return [HEAD.sub("", it) for it in self.lines()]


def ref_of(job):
    meta = {it: job["metadata"][it] for it in ("name", "namespace", "uid")}
    return {"apiVersion": "batch/v1", "kind": "Job"} | meta


def refusal(code, reason, message, **details):
    """An answer as API servers refuse."""
    body = {"kind": "Status", "apiVersion": "v1", "metadata": {}, "status": "Failure"}
    body |= {"message": message, "reason": reason, "code": code, "details": details}
    return {"status": code, "body": body}
