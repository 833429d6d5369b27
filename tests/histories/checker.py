"""Whether a history that `cronsim run --history` printed keeps what docs/RULES.md promises. It is
written from that page alone, and shares nothing with the program: a store, a watch window, a
listing that lags, a work queue and the syncs in flight, each a few lines of Python; every line of
the history is looked at in turn, and its answer must be the one that the lines before it give.

`faults(text)` gives a list of (place, rule, words), empty where all is well. After a fault it goes
on with what the line says.
"""
import re

WINDOW = 100_000
ROLES = {
    "User": {
        "createCron",
        "updateCron",
        "deleteCron",
        "getCron",
        "getJob",
        "listCrons",
        "listJobs",
        "createJob",
        "updateJob",
        "deleteJob",
        "watch",
    },
    "Runner": {"getCron", "getJob", "listCrons", "listJobs", "endJob", "watch"},
    "Informer": {
        "getCron",
        "getJob",
        "listCrons",
        "listJobs",
        "watch",
        "add",
        "tick",
        "shut",
        "feed",
    },
    "Worker": {
        "take",
        "seeCron",
        "seeJobs",
        "seeActive",
        "claim",
        "drop",
        "make",
        "setStatus",
        "finish",
    },
}
LINE = re.compile(r"(\d+) (\d+) (User|Runner|Informer|Worker) (\S+) (\S+) (\w+) (.*)")


class Line:
    """One entry as it is printed: PLACE NUMBER ROLE TIME KEY DO ANSWER, then words, of which some
    are NAME=VALUE."""

    def __init__(self, text):
        found = LINE.fullmatch(text)
        if not found:
            raise ValueError(f"no line of a history: {text!r}")
        self.place, self.number, self.role, self.time, self.key, self.do, rest = found.groups()
        self.place, self.number = int(self.place), int(self.number)
        words = rest.split(" ")
        self.refusal = None if words[0] == "ok" else words[0]
        self.named = {
            name: value for name, sign, value in (word.partition("=") for word in words) if sign
        }
        self.plain = [word for word in words[1:] if "=" not in word]
        # The version in the answer: the first `v=`, which stands before all other words that are
        # named.
        self.version = int(self.named["v"]) if "v" in self.named else None

    def names(self, name):
        return [] if self.named[name] == "-" else self.named[name].split(",")


def minute(time):
    """The minutes since 1970 of a printed time."""
    from datetime import datetime

    return (
        int((datetime.strptime(time, "%Y-%m-%dT%H:%M:%SZ") - datetime(1970, 1, 1)).total_seconds())
        // 60
    )


def millis(time):
    from datetime import datetime

    return (
        int((datetime.strptime(time, "%Y-%m-%dT%H:%M:%SZ") - datetime(1970, 1, 1)).total_seconds())
        * 1000
    )


def split(key):
    namespace, _, name = key.partition("/")
    return namespace, name


def uid_text(count):
    return f"00000000-0000-0000-0000-{count:012x}"


class Store:
    def __init__(self):
        self.crons, self.jobs, self.events, self.uids = {}, {}, [], 0

    @property
    def version(self):
        return len(self.events)

    def write(self, what, kind, key, thing):
        """The n-th write gives its object version n."""
        thing = None if thing is None else dict(thing, v=self.version + 1)
        table = self.crons if kind == "CronJob" else self.jobs
        if what == "DELETED":
            thing = dict(table.pop(key), v=self.version + 1)
        else:
            table[key] = thing
        self.events.append((what, kind, key, thing))
        return thing

    def new_uid(self):
        self.uids += 1
        return uid_text(self.uids)


class Queue:
    """client-go's work queue: the line, the dirty keys, those that are worked on, those that
    wait."""

    def __init__(self):
        self.line, self.dirty, self.held, self.waiting, self.failures, self.now, self.shut = (
            [],
            set(),
            set(),
            {},
            {},
            0,
            False,
        )

    def add(self, key):
        if self.shut or key in self.dirty:
            return
        self.dirty.add(key)
        if key not in self.held:
            self.line.append(key)

    def take(self):
        key = self.line.pop(0)
        self.dirty.discard(key)
        self.held.add(key)
        return key

    def done(self, key):
        self.held.discard(key)
        if key in self.dirty:
            self.line.append(key)

    def add_after(self, key, at):
        if self.shut:
            return
        if at <= self.now:
            self.add(key)
        else:
            self.waiting[key] = min(at, self.waiting.get(key, at))

    def tick(self, at):
        self.now = max(self.now, at)
        ready = sorted((when, split(key)) for key, when in self.waiting.items() if when <= self.now)
        for _, (namespace, name) in ready:
            del self.waiting[f"{namespace}/{name}"]
            self.add(f"{namespace}/{name}")

    def stop(self):
        self.shut, self.waiting = True, {}


class Sync:
    """What a worker that holds a key has seen and planned."""

    def __init__(self, key):
        self.key, self.phase = key, "held"
        self.cron = self.listing = self.live = None
        self.steps, self.dropped, self.made = [], set(), None
        self.version = self.time = self.last = self.policy = self.moment = self.next = None


class Checker:
    def __init__(self):
        self.store, self.queue, self.syncs, self.fed, self.mirror = Store(), Queue(), {}, 0, {}
        self.roles, self.made, self.found, self.line = {}, {}, [], None

    # ---- what is said of a fault

    def fault(self, rule, words):
        self.found.append((self.line.place, rule, words))

    def want(self, rule, wanted, got, what):
        if wanted != got:
            self.fault(rule, f"{what}: {got!r}, and not {wanted!r}")

    def refused(self, rule, wanted):
        """Whether the line is refused, as it must be where `wanted` names a refusal, and only
        then."""
        self.want(rule, wanted, self.line.refusal, f"{self.line.do} is answered")
        return self.line.refusal is not None

    # ---- a line

    def read(self, line):
        self.want("places", len(self.places) + 1, line.place, "the place of the entry")
        self.places.append(line.place)
        self.want(
            "passes",
            self.roles.setdefault(line.number, line.role),
            line.role,
            f"the role of caller {line.number}",
        )
        if line.do not in ROLES[line.role]:
            return self.refused("roles", "NotPermitted")
        getattr(self, line.do)(line)

    places = ()

    def run(self, text):
        self.places = []
        for row in text.splitlines():
            self.line = Line(row)
            try:
                self.read(self.line)
            except (AttributeError, IndexError, KeyError, TypeError, ValueError) as wrong:
                self.fault("form", f"it can't be read after what came before: {wrong!r}")
        return self.found

    # ---- users and runners

    def given_conflict(self, line, thing):
        uid, version = line.named.get("if-uid", thing["uid"]), line.named.get(
            "if-version", str(thing["v"])
        )
        return uid != thing["uid"] or version != str(thing["v"])

    def fields(self, line, thing, rule="store"):
        """The words of an object are those of the object that the rules give."""
        for name, value in thing.items():
            if name in line.named:
                self.want(rule, str(value), line.named[name], f"{name} of {line.key}")

    def create(self, line, kind, table, thing):
        wanted = (
            "Invalid"
            if "if-version" in line.named
            else "AlreadyExists"
            if line.key in table
            else None
        )
        if line.refusal == "NotPermitted" and kind == "Job":
            return
        if self.refused("create", wanted):
            return
        self.fields(
            line, self.store.write("ADDED", kind, line.key, dict(thing, uid=self.store.new_uid()))
        )

    def createCron(self, line):
        thing = (
            {}
            if line.refusal
            else {
                "policy": line.named["policy"],
                "suspend": line.named["suspend"],
                "last": "-",
                "active": "-",
            }
        )
        self.create(line, "CronJob", self.store.crons, thing)

    def createJob(self, line):
        thing = (
            {}
            if line.refusal
            else {
                "owner": "-",
                "owner-uid": "-",
                "due": line.named["due"],
                "created": line.time,
                "state": "Running",
            }
        )
        self.create(line, "Job", self.store.jobs, thing)

    def update(self, line, kind, table, changes):
        thing = table.get(line.key)
        wanted = (
            "NotFound"
            if thing is None
            else "Conflict"
            if self.given_conflict(line, thing)
            else None
        )
        if kind == "Job" and wanted is None and line.refusal == "NotPermitted":
            return
        if self.refused("update", wanted):
            return
        self.fields(
            line, self.store.write("MODIFIED", kind, line.key, dict(thing or {}, **changes))
        )

    def updateCron(self, line):
        self.update(
            line,
            "CronJob",
            self.store.crons,
            {} if line.refusal else {name: line.named[name] for name in ("policy", "suspend")},
        )

    def updateJob(self, line):
        self.update(
            line, "Job", self.store.jobs, {} if line.refusal else {"due": line.named["due"]}
        )

    def delete(self, line, kind, table):
        if not self.refused("deletion", None if line.key in table else "NotFound"):
            if line.key in table:
                self.want(
                    "versions",
                    self.store.write("DELETED", kind, line.key, None)["v"],
                    line.version,
                    "the version of the deletion",
                )

    def deleteCron(self, line):
        self.delete(line, "CronJob", self.store.crons)

    def deleteJob(self, line):
        self.delete(line, "Job", self.store.jobs)

    def endJob(self, line):
        job = self.store.jobs.get(line.key)
        wanted = (
            "NotFound"
            if job is None or job["uid"] != line.named["of"]
            else "AlreadyFinished"
            if job["state"] != "Running"
            else None
        )
        if not self.refused("job-end", wanted) and job:
            self.fields(
                line,
                self.store.write(
                    "MODIFIED", "Job", line.key, dict(job, state=line.named["outcome"])
                ),
            )

    def get(self, line, table):
        thing = table.get(line.key)
        if not self.refused("store", None if thing else "NotFound"):
            self.fields(line, thing or {})

    def getCron(self, line):
        self.get(line, self.store.crons)

    def getJob(self, line):
        self.get(line, self.store.jobs)

    def listed(self, table):
        return [f"{key}@{table[key]['v']}" for key in sorted(table, key=split)]

    def list_all(self, line, table):
        if not self.refused("lists", None):
            self.want("lists", self.store.version, line.version, "the version of the listing")
            self.want("lists", self.listed(table), line.plain, "the listing")

    def listCrons(self, line):
        self.list_all(line, self.store.crons)

    def listJobs(self, line):
        self.list_all(line, self.store.jobs)

    # ---- the watch, the listing that lags, the queue

    def watch(self, line):
        after, most = int(line.named["after"]), int(line.named["max"])
        if self.refused("watch-window", "Expired" if after + WINDOW < self.store.version else None):
            return
        events = [
            f"{what}:{kind}:{key}@{thing['v']}"
            for what, kind, key, thing in self.store.events[after : after + most]
        ]
        self.want(
            "events", [str(len(events))] + events, line.plain, f"what is told after version {after}"
        )

    def feed(self, line):
        self.refused("mirror", None)
        known = (
            self.store.version
            if self.fed + WINDOW < self.store.version
            else min(self.store.version, self.fed + int(line.named["max"]))
        )
        for what, kind, key, thing in self.store.events[self.fed : known]:
            if kind == "Job":
                if what == "DELETED":
                    self.mirror.pop(key, None)
                else:
                    self.mirror[key] = thing
        self.fed = known
        self.want("mirror", known, line.version, "how many writes the listing knows")

    def add(self, line):
        self.refused("queue-add", None)
        self.queue.add(line.key)

    def tick(self, line):
        self.refused("queue-tick", None)
        self.queue.tick(int(line.named["ms"]))

    def shut(self, line):
        self.refused("queue-shut", None)
        self.queue.stop()

    # ---- workers

    def take(self, line):
        if line.number in self.syncs:
            return self.refused("phases", "OutOfPhase")
        line_up = self.queue.line
        if self.refused(
            "queue-take",
            None if line_up else "ShutDown" if self.queue.shut else "nothing that is entered",
        ):
            return
        if line.key in self.queue.held:
            self.fault("exclusive", f"{line.key} is in another's hands")
        self.want("queue-line", line_up[:1], [line.key], "the first of the line")
        if line.key in line_up:
            line_up.remove(line.key)
            line_up.insert(0, line.key)
            self.queue.take()
        self.syncs[line.number] = Sync(line.key)

    def sync(self, phase):
        """The caller's sync, if the call is one of its phase."""
        sync = self.syncs.get(self.line.number)
        if sync is None or sync.phase != phase:
            self.refused("phases", "OutOfPhase")
            return None
        return sync

    def seeCron(self, line):
        sync = self.sync("held")
        if sync and not self.refused("live-read", None):
            sync.phase, sync.cron = "seen", self.store.crons.get(sync.key)
            self.want(
                "phases", sync.cron is None, "none" in line.plain, "whether there is no CronJob"
            )
            self.fields(line, sync.cron or {})

    def seeJobs(self, line):
        sync = self.sync("seen")
        if sync and not self.refused("lagging-listing", None):
            namespace, name = split(sync.key)
            sync.listing = {
                key: job
                for key, job in self.mirror.items()
                if split(key)[0] == namespace and job["owner"] == name
            }
            jobs = self.listed(sync.listing)
            sync.phase = "listed"
            self.want("lagging-listing", [str(len(jobs))] + jobs, line.plain, "the listing")

    def seeActive(self, line):
        sync = self.sync("listed")
        if sync and not self.refused("live-read", None):
            names = (
                []
                if not sync.cron or sync.cron["active"] == "-"
                else sync.cron["active"].split(",")
            )
            namespace = split(sync.key)[0]
            jobs = [self.store.jobs.get(f"{namespace}/{name}") for name in names]
            jobs = [job if job and job["owner-uid"] == sync.cron["uid"] else None for job in jobs]
            sync.live = {f"{namespace}/{name}": job for name, job in zip(names, jobs) if job}
            told = [
                f"{namespace}/{name}@{job['v']}" if job else "-" for name, job in zip(names, jobs)
            ]
            sync.phase = "read"
            self.want("live-read", [str(len(sync.live))] + told, line.plain, "the live read")

    def plan_is_well_formed(self, line, sync):
        """What a plan says must follow from what its worker saw (what a schedule has to do with
        isn't looked at)."""
        running = sorted(
            (job["created"], split(key))
            for key, job in sync.live.items()
            if job["state"] == "Running"
        )
        running = [name for _, (_, name) in running]
        make, policy = line.named["make"], line.named["policy"]
        if make != "-" and sync.cron["suspend"] == "yes":
            self.fault("decision-cases", "it is suspended, and a Job is planned")
        if make != "-" and policy == "Forbid" and running:
            self.fault("live-read-decides", f"{running} run, and a Job is planned under Forbid")
        self.want(
            "decision-cases",
            running if make != "-" and policy == "Replace" else [],
            line.names("drop"),
            "what is dropped first",
        )
        for name in line.names("cleanup"):
            job = sync.listing.get(f"{split(sync.key)[0]}/{name}")
            if job is None:
                self.fault("cleanup", f"{name} isn't listed")
            elif sync.cron and job["owner-uid"] == sync.cron["uid"] and job["state"] == "Running":
                self.fault("cleanup", f"{name} runs, and is cleaned up")

    def claim(self, line):
        sync = self.sync("read")
        if not sync:
            return
        seen = (
            (sync.cron["uid"], str(sync.cron["v"]), sync.cron["policy"])
            if sync.cron
            else ("-", "-", "-")
        )
        plan = tuple(line.named[name] for name in ("of", "seen", "policy"))
        make, stands = line.named["make"], self.store.crons.get(sync.key)
        wanted = "Stale" if plan != seen else None
        if plan == seen and make != "-":
            wanted = (
                "NotFound"
                if not stands or stands["uid"] != plan[0]
                else "Conflict"
                if str(stands["v"]) != plan[1]
                else None
            )
        if self.refused("claim-inputs", wanted):
            return
        sync.phase, sync.moment = "works", line.time
        sync.steps = [("drop", name) for name in line.names("drop")] + [("make", make)] * (
            make != "-"
        )
        sync.steps += [("drop", name) for name in line.names("cleanup")] + [("setStatus", None)] * (
            line.named["status"] == "yes"
        )
        sync.next, sync.version = line.named["next"], sync.cron["v"] if sync.cron else None
        sync.dropped, sync.made = set(line.names("drop")), None if make == "-" else make
        if sync.cron or make == "-":
            self.plan_is_well_formed(line, sync)
            self.claim_time(line, sync, make, stands)
        else:
            self.fault("decision-cases", "there is no CronJob, and a Job is planned")

    def claim_time(self, line, sync, make, stands):
        if make == "-":
            self.want("decision-cases", ["none"], line.plain, "what is claimed")
            sync.last = sync.cron["last"] if sync.cron else "-"
            return
        time = line.plain[0]
        sync.time, sync.policy, sync.last = time, (stands or sync.cron)["policy"], time
        self.want(
            "made-job",
            f"{split(sync.key)[1]}-{minute(time)}",
            make,
            "the name of the Job for that time",
        )
        if stands and stands["last"] != "-" and time <= stands["last"]:
            self.fault("claim-time", f"{time} isn't later than the last time, {stands['last']}")
        if time > line.time:
            self.fault("claim-time", f"{time} isn't over at {line.time}")
        active = {make} | (set(stands["active"].split(",")) - {"-"} if stands else set())
        claimed = self.store.write(
            "MODIFIED",
            "CronJob",
            sync.key,
            dict(stands or sync.cron, last=time, active=",".join(sorted(active))),
        )
        sync.version = claimed["v"]
        self.want("versions", claimed["v"], line.version, "the version of the claim")

    def step(self, kind):
        """The sync whose next step is of that kind, with what it names."""
        sync = self.syncs.get(self.line.number)
        if sync is None or sync.phase != "works" or not sync.steps or sync.steps[0][0] != kind:
            self.refused("plan-steps", "OutOfPhase")
            return None, None
        return sync, sync.steps[0][1]

    def planned(self, sync, key):
        """The Job as the plan's worker saw it: by its live read, or else by the listing."""
        return sync.live.get(key) or (sync.listing or {}).get(key)

    def drop(self, line):
        sync, name = self.step("drop")
        if not sync or self.refused("plan-steps", None):
            return
        sync.steps.pop(0)
        key = f"{split(sync.key)[0]}/{name}"
        job, planned = self.store.jobs.get(key), self.planned(sync, key)
        gone = job is None or planned is None or job["uid"] != planned["uid"]
        self.want("plan-steps", ["gone"] if gone else [name], line.plain, "what is dropped")
        if not gone:
            self.want(
                "versions",
                self.store.write("DELETED", "Job", key, None)["v"],
                line.version,
                "the version of the drop",
            )

    def make(self, line):
        sync, name = self.step("make")
        if not sync:
            return
        key = f"{split(sync.key)[0]}/{name}"
        if self.refused("plan-steps", "AlreadyExists" if key in self.store.jobs else None):
            return
        sync.steps.pop(0)
        self.once(line, sync)
        self.alone(sync, key)
        job = {
            "owner": split(sync.key)[1],
            "owner-uid": sync.cron["uid"],
            "due": sync.time,
            "created": sync.moment,
            "state": "Running",
        }
        self.want("made-job", [name], line.plain, "the name of the Job")
        self.fields(
            line,
            self.store.write("ADDED", "Job", key, dict(job, uid=self.store.new_uid())),
            "made-job",
        )

    def once(self, line, sync):
        """No two Jobs of one CronJob, by its uid, for one time."""
        start = (line.named["owner-uid"], line.named["due"])
        if start in self.made:
            self.fault(
                "once", f"{start[1]} of {sync.key} got a Job at place {self.made[start]} already"
            )
        self.made.setdefault(start, line.place)

    def alone(self, sync, key):
        """Under Forbid and Replace none beside another one of its CronJob."""
        if sync.policy in ("Forbid", "Replace"):
            others = [
                k
                for k, job in self.store.jobs.items()
                if job["owner-uid"] == sync.cron["uid"] and job["state"] == "Running" and k != key
            ]
            if others:
                self.fault("alone", f"{others} of {sync.key} run")

    def setStatus(self, line):
        sync, _ = self.step("setStatus")
        if not sync:
            return
        stands = self.store.crons.get(sync.key)
        wanted = (
            "NotFound"
            if not stands or stands["uid"] != sync.cron["uid"]
            else "Conflict"
            if stands["v"] != sync.version
            else None
        )
        if self.refused("status-update", wanted):
            return
        sync.steps.pop(0)
        status = {"last": sync.last, "active": self.final_active(sync)}
        self.want(
            "versions",
            self.store.write("MODIFIED", "CronJob", sync.key, dict(stands or sync.cron, **status))[
                "v"
            ],
            line.version,
            "the version of the status",
        )

    def final_active(self, sync):
        names = {
            split(key)[1] for key, job in sync.live.items() if job["state"] == "Running"
        } - sync.dropped
        names |= {sync.made} if sync.made else set()
        return ",".join(sorted(names)) or "-"

    def finish(self, line):
        sync = self.syncs.get(line.number)
        well = line.plain[0] == "well" if line.plain else True
        if sync is None or (well and (sync.phase != "works" or sync.steps)):
            return self.refused("phases", "OutOfPhase")
        if self.refused("finish", None):
            return
        reasons = line.names("reasons")
        if "JobAlreadyActive" in reasons and (
            not sync.cron
            or sync.cron["policy"] != "Forbid"
            or not any(j["state"] == "Running" for j in (sync.live or {}).values())
        ):
            self.fault("sync-reasons", "JobAlreadyActive is told, and none runs under Forbid")
        del self.syncs[line.number]
        self.queue.done(sync.key)
        if well:
            self.queue.failures.pop(sync.key, None)
            if sync.next not in (None, "-"):
                self.queue.add_after(sync.key, millis(sync.next))
        else:
            failures = self.queue.failures.get(sync.key, 0)
            self.queue.failures[sync.key] = min(failures + 1, 18)
            self.queue.add_after(
                sync.key, int(line.named["ms"]) + min(5 * 2**failures, 1_000_000)
            )


def faults(text):
    return Checker().run(text)
