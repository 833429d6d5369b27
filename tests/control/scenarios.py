"""Random scenarios: a few CronJobs, what users do with them, and how rough the time is."""
import random

from server import JSON_PATCH, MERGE, stamp

START = 1795831200  # 2026-11-28T02:00:00Z, whole minutes later by the number of the scenario
POLICIES = ("Allow", "Forbid", "Replace")
SCHEDULES = ("* * * * *", "* * * * *", "*/2 * * * *", "1-59/2 * * * *", "*/3 * * * *")
RUNS = (0, 1, 5, 20, 45, 55, 70, 110, 150, 200)
NAMESPACES = ("a", "b")


def random_schedule(dice):
    if dice.random() < 0.2:
        return ",".join(map(str, sorted(dice.sample(range(60), 25)))) + " * * * *"
    return dice.choice(SCHEDULES)


def random_template(dice):
    run = str(dice.choice(RUNS)) + (" Failed" if dice.random() < 0.2 else "")
    pod = {"containers": [{"name": "c", "image": f"image:{dice.randrange(9)}"}]}
    spec = {"template": {"spec": pod | {"restartPolicy": dice.choice(("Never", "OnFailure"))}}}
    if dice.random() < 0.3:
        spec["backoffLimit"] = dice.randrange(4)
    if dice.random() < 0.2:
        spec["parallelism"] = dice.randrange(1, 4)
    if dice.random() < 0.1:
        spec["completions"] = dice.randrange(1, 4)
    if dice.random() < 0.2:
        spec["template"]["metadata"] = {"labels": {"app": "x"}}
    meta = {"annotations": {"test/run": run}}
    if dice.random() < 0.3:
        meta["labels"] = {"team": dice.choice("xyz")}
    return {"metadata": meta, "spec": spec}


def random_cron(dice, name):
    spec = {"schedule": random_schedule(dice), "concurrencyPolicy": dice.choice(POLICIES)}
    spec["jobTemplate"] = random_template(dice)
    if dice.random() < 0.2:
        spec["startingDeadlineSeconds"] = dice.choice((20, 45, 90, 200))
    if dice.random() < 0.5:
        spec["successfulJobsHistoryLimit"] = dice.choice((0, 0, 0, 1, 2, 5))
        spec["failedJobsHistoryLimit"] = dice.choice((0, 0, 1, 2))
    return {"kind": "CronJob", "metadata": {"name": name}, "spec": spec}


class Scenario:
    """What a number stands for. It acts on a server as a user; `later` makes a call later."""

    def __init__(self, number):
        self.number = number
        self.dice = dice = random.Random(f"scenario {number}")
        self.start = START + dice.randrange(600) * 60 + dice.uniform(0, 60)
        self.beta = dice.random() < 0.15
        self.minor = 20 if self.beta else dice.choice((22, 24, 29, 33))
        self.marks_held = not self.beta and dice.random() < 0.5
        self.storm = dice.uniform(13, 17) * 60
        self.quiet = 215
        self.names = [
            (dice.choice(NAMESPACES), f"c{n}") for n in range(dice.choice((1, 2, 2, 3, 4)))
        ]
        rough = dice.random()
        self.is_calm = rough < 0.15
        self.faults = 0 if self.is_calm else dice.choice((0, 0.02, 0.05, 0.15))
        self.kills = 0 if self.is_calm else dice.choice((0, 0.01, 0.03))
        self.stalls = 0 if self.is_calm else dice.choice((0.005, 0.02, 0.05))
        self.edits = dice.choice((0, 8, 20, 40) if self.is_calm else (0, 0, 4, 12, 30))
        # The share of whole minutes that are rough for all replicas, of watches that fall behind by
        # a minute or two, and by how many seconds the replicas' clocks may differ.
        self.bursts = 0 if self.is_calm else dice.choice((0, 0.1, 0.3))
        self.behind = 0 if self.is_calm else dice.choice((0, 0, 0.3))
        self.skew = dice.choice((0, 0, 0, 0.3, 2))
        # (a cluster on which many Jobs are deleted by hand, and one with many strangers)
        self.weights = [dice.choice((1, 1, 4)) for _ in EDITS]
        self.most_items = dice.choice((0, 0, 1, 3))
        # One CronJob whose short Jobs go at once, so that names become free, in rough minutes only.
        self.is_duel = not self.is_calm and dice.random() < 0.2
        self.replicas = 3
        if self.is_duel:
            self.bursts, self.names, self.replicas = 0.9, self.names[:1], dice.choice((1, 1, 2, 3))
        # Answers have the server's date, or come from a transport that leaves it out. They may be
        # no larger than this (0: as large as they are). Replicas may ask servers of two versions.
        self.tells_date = number % 5 != 1
        self.most_bytes = 12000 if number % 6 == 2 else 0
        self.is_mixed = not self.beta and number % 4 == 3
        self.server = self.later = None

    def minor_for(self, who):
        """The version that a replica is told: while servers are upgraded, now this, now that."""
        return (22, 24)[sum(who.encode()) % 2] if self.is_mixed else self.minor

    def path(self, resource, key, group=None):
        group = group or self.server.groups[resource]
        return f"/apis/batch/{group}/namespaces/{key[0]}/{resource}"

    def ask(self, *words):
        return self.server.call(*words, who="user")

    def create(self, key):
        cron = random_cron(self.dice, key[1])
        if self.is_duel:
            cron["spec"] |= {"schedule": "* * * * *", "startingDeadlineSeconds": None}
            cron["spec"] |= {"successfulJobsHistoryLimit": 0, "failedJobsHistoryLimit": 0}
            cron["spec"]["jobTemplate"]["metadata"]["annotations"]["test/run"] = "1"
        self.ask("POST", self.path("cronjobs", key), cron)

    def begin(self, server, later):
        self.server, self.later = server, later
        for key in self.names:
            later(self.dice.uniform(0, 90), self.create, key)
        for _ in range(self.edits):
            at = self.dice.uniform(0, self.storm)
            if self.dice.random() < 0.5:
                # beside a whole minute
                at = max(0, at // 60 * 60 - self.start % 60 + self.dice.uniform(-2, 6))
            later(at, self.edit)

    def edit(self):
        what = self.dice.choices(EDITS, self.weights)[0]
        what(self, self.dice.choice(self.names))

    def edit_in_burst(self):
        """What a user does just then is what a claim rests on."""
        what = self.dice.choice(
            (Scenario.edit_policy, Scenario.edit_template, Scenario.delete_name)
        )
        what(self, self.dice.choice(self.names))

    def patch(self, key, spec):
        path = f"{self.path('cronjobs', key)}/{key[1]}"
        if self.dice.random() < 0.8:
            self.ask("PATCH", path, {"spec": spec}, MERGE)
            return
        status, cron = self.ask("GET", path)
        if status == 200:
            self.ask("PUT", path, cron | {"spec": cron["spec"] | spec})

    def edit_policy(self, key):
        self.patch(key, {"concurrencyPolicy": self.dice.choice(POLICIES)})

    def edit_schedule(self, key):
        self.patch(key, {"schedule": random_schedule(self.dice)})

    def edit_template(self, key):
        self.patch(key, {"jobTemplate": random_template(self.dice)})

    def edit_rest(self, key):
        seconds = self.dice.choice((None, 15, 40, 120))
        spec = {"startingDeadlineSeconds": seconds, "successfulJobsHistoryLimit": 0}
        self.patch(key, spec)

    def edit_labels(self, key):
        path = f"{self.path('cronjobs', key)}/{key[1]}"
        labels = {"metadata": {"labels": {"n": str(self.dice.randrange(99))}}}
        self.ask("PATCH", path, labels, MERGE)

    def suspend(self, key):
        self.patch(key, {"suspend": True})
        self.later(self.dice.uniform(1, 200), self.patch, key, {"suspend": False})

    def delete_cron(self, key):
        policy = self.dice.choice(("Background", "Background", "Foreground", "Orphan", None))
        path = f"{self.path('cronjobs', key)}/{key[1]}"
        self.ask("DELETE", path, {"propagationPolicy": policy} if policy else None)
        self.later(self.dice.choice((0.01, 1, 5, 30, 90)), self.create, key)

    def delete_job(self, key):
        jobs = [it for it in self.server.objects["jobs"] if it[0] == key[0]]
        if jobs:
            found = self.dice.choice(sorted(jobs)[-6:])
            policy = self.dice.choice(("Background", "Background", "Foreground", None))
            path = f"{self.path('jobs', found)}/{found[1]}"
            self.ask("DELETE", path, {"propagationPolicy": policy} if policy else None)

    def delete_name(self, key):
        """Deletes the Job of a time that is claimed just now, or was a little earlier."""
        name = self.last_active(key)
        if name:
            path = f"{self.path('jobs', key)}/{name}"
            self.ask("DELETE", path, {"propagationPolicy": "Background"})

    def last_active(self, key):
        """The last name in `status.active`."""
        cron = self.server.objects["cronjobs"].get(key)
        active = (cron or {}).get("status", {}).get("active") or []
        return active[-1].get("name") if active else None

    def replace_name(self, key):
        """Deletes that Job and creates it anew as it was, as `kubectl replace --force` does."""
        name, path = self.last_active(key), self.path("jobs", key)
        if not name:
            return
        status, job = self.ask("GET", f"{path}/{name}")
        if status == 200:
            meta = {it: job["metadata"].get(it) for it in ("name", "labels", "annotations")}
            meta["ownerReferences"] = job["metadata"].get("ownerReferences")
            spec = {it: value for it, value in job["spec"].items() if it != "selector"}
            body = {"propagationPolicy": "Background"}
            self.ask("DELETE", f"{path}/{meta['name']}", body)
            self.ask("POST", path, {"metadata": meta, "spec": spec})

    def create_stranger(self, key):
        """Takes a name that a time to come will want, with or without its CronJob as owner."""
        cron = self.server.objects["cronjobs"].get(key)
        now, dice = self.server.clock(), self.dice
        minutes = int(now // 60) + dice.choice((0, 0, 1, 1, 2))
        draft = random_template(dice)
        meta, spec = draft["metadata"] | {"name": f"{key[1]}-{minutes}"}, draft["spec"]
        if dice.random() < 0.5:
            spec["suspend" if self.minor >= 22 else "parallelism"] = self.minor >= 22 or 0
        if cron and dice.random() < 0.4:
            owner = {"apiVersion": cron["apiVersion"], "kind": "CronJob", "name": key[1]}
            owner |= {"uid": cron["metadata"]["uid"], "controller": True}
            meta["ownerReferences"] = [owner]
        if dice.random() < 0.4:
            meta["annotations"]["batch.kubernetes.io/cronjob-scheduled-timestamp"] = stamp(
                minutes * 60
            )
        self.ask("POST", self.path("jobs", key), {"metadata": meta, "spec": spec})

    def pin_name(self, key):
        """Takes such a name by a Job that is being deleted, and stays so for a while."""
        draft, minutes = random_template(self.dice), int(self.server.clock() // 60) + 1
        name = f"{key[1]}-{minutes + self.dice.randrange(2)}"
        meta = {"name": name, "finalizers": ["example.com/slow"]}
        path = self.path("jobs", key)
        self.ask("POST", path, {"metadata": meta, "spec": draft["spec"]})
        self.ask("DELETE", f"{path}/{name}", {"propagationPolicy": "Background"})
        free = {"metadata": {"finalizers": None}}
        self.later(self.dice.uniform(30, 300), self.ask, "PATCH", f"{path}/{name}", free, MERGE)

    def break_active(self, key):
        """Puts references of no Job into `status.active`, which whoever may write there can."""
        cron = self.server.objects["cronjobs"].get(key)
        if cron is None:
            return
        names = self.dice.choice((["../../secrets/x"], ["A"], ["", "x/y"], [None]))
        refs = [{"kind": "Job", "name": it} if it is not None else {"kind": "Job"} for it in names]
        active = (cron["status"].get("active") or []) + refs
        meta = {it: cron["metadata"][it] for it in ("uid", "resourceVersion")}
        body = {"metadata": meta, "status": {"active": active}}
        self.ask("PATCH", f"{self.path('cronjobs', key)}/{key[1]}/status", body, MERGE)

    def release_one(self, key):
        """Starts a held Job of a stranger by hand, as anybody may."""
        for found, job in sorted(self.server.objects["jobs"].items()):
            is_strange = "cronsim/held" not in job["metadata"].get("annotations", {})
            if found[0] == key[0] and is_strange and job["spec"].get("suspend"):
                body = [{"op": "replace", "path": "/spec/suspend", "value": False}]
                self.ask("PATCH", f"{self.path('jobs', found)}/{found[1]}", body, JSON_PATCH)
                return


EDITS = (
    Scenario.edit_policy,
    Scenario.edit_policy,
    Scenario.edit_schedule,
    Scenario.edit_template,
    Scenario.edit_rest,
    Scenario.edit_labels,
    Scenario.suspend,
    Scenario.delete_cron,
    Scenario.delete_job,
    Scenario.delete_job,
    Scenario.delete_name,
    Scenario.replace_name,
    Scenario.create_stranger,
    Scenario.pin_name,
    Scenario.break_active,
    Scenario.release_one,
)


class Beside(Scenario):
    """A scenario for `--only-annotated`: all CronJobs are suspended and annotated, and somebody
    else writes `status.active` as well, by what it has heard so far."""

    def create(self, key):
        self.later(0, self.annotate, key)
        super().create(key)

    def annotate(self, key):
        path = f"{self.path('cronjobs', key)}/{key[1]}"
        meta = {"annotations": {"cronsim/run": "true"}}
        self.ask("PATCH", path, {"metadata": meta, "spec": {"suspend": True}}, MERGE)

    def suspend(self, key):
        self.annotate(key)

    def begin(self, server, later):
        super().begin(server, later)
        for minute in range(int(self.storm // 60)):
            for _ in range(self.dice.choice((0, 1, 2, 4))):
                # (mostly soon after a claim)
                wait = self.dice.choice((self.dice.uniform(0, 3), self.dice.uniform(0, 60)))
                at = minute * 60 - self.start % 60 + wait
                later(max(0, at), self.tidy_active, self.dice.choice(self.names))

    def tidy_active(self, key):
        """Takes Jobs out of `status.active`, as one does that doesn't know of them yet."""
        cron = self.server.objects["cronjobs"].get(key)
        active = ((cron or {}).get("status") or {}).get("active") or []
        kept = [it for it in active if self.dice.random() < 0.3]
        if len(kept) == len(active):
            return
        path = f"{self.path('cronjobs', key)}/{key[1]}/status"
        meta = {it: cron["metadata"][it] for it in ("uid", "resourceVersion")}
        self.ask("PATCH", path, {"metadata": meta, "status": {"active": kept or None}}, MERGE)
