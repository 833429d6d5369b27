"""Reads the log of observer.py, and nothing else, and counts what went wrong and what it took.

A Job runs from the moment at which the observer sees it no longer held, or created unheld, until it
has finished or is gone. A CronJob is told by its uid. Counted are:

    doubles        two Jobs of one CronJob and one scheduled time that ran
    overlaps       a Job that began to run while another of its CronJob ran: its policy is Forbid,
                   or Replace and the other one wasn't being deleted. The policy is what its
                   annotation cronsim/policy says, or else that of the CronJob, if it stayed so for
                   some seconds
    unstarted      a time in status.lastScheduleTime whose Job stands held, or never was
    lost           the same, whose Job was deleted before it ran, and not by a user
    stuck          a CronJob that stands, and started nothing at the end for two minutes, with
                   nothing of it running where its policy is Forbid
    nameless       a CronJob with a reference without a name in status.active at the end
    garbage        a held Job that stands at the end, of a time that can't be claimed any more
    early          the same, of a time after the last one, which can (no fault)
    held again     a Job that ran, and was held later

Each due time without a Job that ran is looked up in what people were told (told.py); `unmade` are
those, by what was told, and `untold` are those of which nobody was told.

Counted too, and no fault: `taken out`, an unfinished Job that stood, taken out of status.active
(by the order of the server's resource versions), and `never held`, a Job that was made without a
hold, which ours never is. Beside the cluster's own controller a claimed Job may be lost.
"""
import json
import sys
import time
from calendar import timegm
from collections import Counter, defaultdict
from functools import lru_cache
from pathlib import Path

sys.path.insert(0, str(Path(__file__).resolve().parent))
from told import Told  # noqa: E402

TIME, POLICY = "batch.kubernetes.io/cronjob-scheduled-timestamp", "cronsim/policy"
# Seconds: what is quiet, what makes a CronJob stuck, and how long a policy stays.
QUIET, STUCK, STAYS = 60, 130, 15
WRONG = (
    "doubles",
    "overlaps",
    "unstarted",
    "lost",
    "stuck",
    "nameless",
    "garbage",
    "held again",
)
OTHERS = ("early", "taken out", "never held")
# What may happen beside the cluster's own controller.
ALLOWED_BESIDE = ("lost",)


@lru_cache(4096)
def second_of(text):
    year, month, day = map(int, text[:10].split("-"))
    return timegm((year, month, day, *map(int, text[11:19].split(":"))))


def clock(at):
    return time.strftime("%H:%M:%S", time.gmtime(at))


def owner_of(item):
    owners = item["metadata"].get("ownerReferences") or []
    return next((it["uid"] for it in owners if it.get("controller")), None)


def time_of(item):
    """The scheduled time of a Job: by its annotation, or else by the minutes in its name."""
    said = (item["metadata"].get("annotations") or {}).get(TIME)
    if said:
        return second_of(said)
    number = item["metadata"]["name"].rpartition("-")[2]
    if not number.isdigit():
        return None
    return int(number) if len(number) > 9 else int(number) * 60


def holds(item):
    spec, said = item["spec"], item["metadata"].get("annotations") or {}
    return "cronsim/held" in said or spec.get("suspend") is True or spec.get("parallelism") == 0


def uids_of(status):
    return {it.get("uid") for it in status.get("active") or []}


def version_of(item):
    return int(item["metadata"]["resourceVersion"])


def has_finished(item):
    conditions = (item.get("status") or {}).get("conditions") or []
    return any(it["type"] in ("Complete", "Failed") and it["status"] == "True" for it in conditions)


class Job:
    def __init__(self, item, at):
        self.item, self.seen = item, at
        self.owner, self.time, self.name = owner_of(item), time_of(item), item["metadata"]["name"]
        self.ran = self.ended = self.gone = None
        # (the version from which on it has finished or is gone)
        self.over = None

    def runs(self):
        return self.ran is not None and self.ended is None and self.gone is None

    def ran_at(self, moment):
        """Whether it ran at a moment."""
        return self.ran is not None and self.ran <= moment <= (self.ended or self.gone or moment)

    def is_leaving(self):
        return "deletionTimestamp" in self.item["metadata"]

    def last_ran(self, now):
        """The last moment at which it ran, as far as is known."""
        return (self.ended or self.gone or now) if self.ran is not None else 0


class Cron:
    def __init__(self, item, at):
        self.item, self.seen, self.gone = item, at, None
        self.name, self.policies, self.claims = item["metadata"]["name"], [], []

    def policy(self, at):
        """Its policy at a moment; of none where it was edited shortly before."""
        known = [it for it in self.policies if it[0] <= at]
        is_settled = known and (len(known) == 1 or at - known[-1][0] > STAYS)
        return known[-1][1] if is_settled else None


class Verdict:
    """Goes through a log, entry after entry."""

    def __init__(self, is_beside=False):
        self.is_beside, self.removed = is_beside, []
        self.jobs, self.crons, self.ran = {}, {}, defaultdict(list)
        self.owned = defaultdict(list)
        self.counts, self.found, self.delays = Counter(), [], []
        self.begin = self.calm = self.now = 0
        self.by_users, self.said = set(), Told(second_of)
        self.unmade, self.untold = Counter(), []

    def tell(self, kind, text):
        self.counts[kind] += 1
        if not (self.is_beside and kind in ALLOWED_BESIDE):
            self.found.append(f"{kind}: {clock(self.now)} {text}")

    def read(self, lines):
        for line in lines:
            entry = json.loads(line)
            self.now = entry["at"]
            if "note" in entry:
                self.noted(entry)
            elif entry["object"]["kind"] == "CronJob":
                self.see_cron(entry["type"], entry["object"])
            else:
                self.see_job(entry["type"], entry["object"])
        self.close()

    def noted(self, entry):
        if entry["note"] in ("begin", "calm"):
            setattr(self, entry["note"], self.now)
        elif entry["note"] == "edit":
            self.counts["edited: " + entry["what"]] += 1
            self.by_users.add(entry["uid"])
        elif entry["note"] == "event":
            self.said.see_event(entry["item"])
        elif entry["note"] == "line":
            self.said.see_line(entry["text"])
        elif entry["note"] in ("trouble", "forgotten"):
            self.counts["troubles of the observer"] += entry["note"] == "trouble"
            self.counts["gaps of the observer"] += entry["note"] == "forgotten"

    def see_cron(self, kind, item):
        uid = item["metadata"]["uid"]
        cron = self.crons.setdefault(uid, Cron(item, self.now))
        if kind in ("DELETED", "GONE"):
            cron.gone = self.now
        policy = item["spec"]["concurrencyPolicy"]
        if not cron.policies or cron.policies[-1][1] != policy:
            cron.policies.append((self.now, policy))
        status, before = item.get("status") or {}, cron.item.get("status") or {}
        gone = uids_of(before) - uids_of(status) if kind not in ("DELETED", "GONE") else ()
        self.removed += [(it, version_of(item)) for it in gone]
        last = status.get("lastScheduleTime")
        if last and (not cron.claims or cron.claims[-1][1] != second_of(last)):
            cron.claims.append((self.now, second_of(last), uids_of(status)))
        cron.item = item

    def see_job(self, kind, item):
        uid = item["metadata"]["uid"]
        if uid not in self.jobs:
            self.jobs[uid] = Job(item, self.now)
            self.owned[owner_of(item)].append(self.jobs[uid])
            if kind == "ADDED" and not holds(item) and self.now > self.begin > 0:
                self.counts["never held"] += 1
        job = self.jobs[uid]
        job.item = item
        if job.over is None and (kind in ("DELETED", "GONE") or has_finished(item)):
            job.over = version_of(item)
        if kind in ("DELETED", "GONE"):
            job.gone = self.now
        elif holds(item):
            if job.ran is not None:
                self.tell("held again", job.name)
        elif job.ran is None and not job.is_leaving():
            self.begins(job)
        if has_finished(item) and job.ended is None:
            job.ended = self.now

    def begins(self, job):
        job.ran = self.now
        self.counts["starts"] += 1
        if job.owner is None or job.time is None:
            return
        if job.time >= self.begin:
            self.delays.append(self.now - job.time)
        known = self.ran[job.owner, job.time]
        known.append(job)
        if len(known) > 1:
            text = ", ".join(f"{it.name} at {clock(it.ran)}" for it in known)
            self.tell("doubles", f"{text}, for {clock(job.time)}")
        self.beside(job)

    def beside(self, job):
        policy = (job.item["metadata"].get("annotations") or {}).get(POLICY)
        if policy is None and job.owner in self.crons:
            policy = self.crons[job.owner].policy(self.now)
        for other in self.owned[job.owner]:
            if other is job or not other.runs():
                continue
            if policy == "Forbid" or policy == "Replace" and not other.is_leaving():
                text = f"{job.name} beside {other.name}, which runs since {clock(other.ran)}"
                self.tell("overlaps", f"{text}, {policy}")
                return

    # ---- the end

    def close(self):
        for uid, version in self.removed:
            job = self.jobs.get(uid)
            if job is not None and (job.over is None or job.over > version):
                self.counts["taken out"] += 1
        for uid, cron in self.crons.items():
            if cron.gone is None and "deletionTimestamp" not in cron.item["metadata"]:
                self.find_unstarted(uid, cron)
                self.find_stuck(uid, cron)
                active = (cron.item.get("status") or {}).get("active") or []
                if any(not it.get("name") for it in active):
                    self.tell("nameless", cron.name)
            self.find_unmade(uid, cron)
        for job in self.jobs.values():
            if job.gone is None and holds(job.item) and job.seen + QUIET / 2 < self.now:
                self.find_garbage(job)

    def find_garbage(self, job):
        cron = self.crons.get(job.owner)
        last = cron.item.get("status", {}).get("lastScheduleTime") if cron else None
        if cron and cron.gone is None and job.time > (second_of(last) if last else 0):
            self.counts["early"] += 1
        else:
            self.tell("garbage", f"{job.name}, made {clock(job.seen)}")

    def find_unstarted(self, uid, cron):
        for at, claimed, uids in cron.claims:
            of_time = [it for it in self.owned[uid] if it.time == claimed]
            named = [it for it in of_time if it.item["metadata"]["uid"] in uids] or of_time
            if at + QUIET > self.now or at < self.begin or any(it.ran for it in of_time):
                continue
            if not named or any(it.gone is None for it in named):
                self.tell("unstarted", f"{cron.name} {clock(claimed)}, claimed {clock(at)}")
            elif not any(it.item["metadata"]["uid"] in self.by_users for it in named):
                self.tell("lost", f"{cron.name} {clock(claimed)}, claimed {clock(at)}")

    def find_stuck(self, uid, cron):
        own = self.owned[uid]
        last = max([cron.seen, *(it.ran or 0 for it in own)])
        # (beside another controller also one under Replace may wait for the end of a Job)
        waits = ("Forbid", "Replace") if self.is_beside else ("Forbid",)
        if cron.item["spec"]["concurrencyPolicy"] in waits:
            last = max([last, *(it.last_ran(self.now) for it in own)])
        if self.now - last > STUCK:
            self.tell("stuck", f"{cron.name}: nothing since {clock(last)}")

    def find_unmade(self, uid, cron):
        """Looks up why a time that was due, a minute ago or earlier, has no Job that ran."""
        first, last = max(self.begin, cron.seen), min(cron.gone or self.now, self.now - QUIET)
        ran = {it.time for it in self.owned[uid] if it.ran}
        for time_due in range((int(first // 60) + 1) * 60, int(last) + 1, 60):
            if time_due not in ran:
                why = self.said.why(uid, cron, time_due, self.owned[uid], self.by_users)
                self.unmade[why or "untold"] += 1
                if why is None:
                    self.untold.append(f"untold: {cron.name} {clock(time_due)}")

    def due(self):
        """How many due times there were from the begin on, of all CronJobs while they stood."""
        spans = ((max(self.begin, it.seen), it.gone or self.now) for it in self.crons.values())
        return sum(max(0, int(last // 60) - int(first // 60)) for first, last in spans)

    def figures(self):
        """The delays from due time to start, in seconds."""
        delays = sorted(self.delays)
        if not delays:
            return {"p50": None, "p99": None, "most": None}
        found = {"p50": delays[len(delays) // 2], "p99": delays[int(len(delays) * 0.99)]}
        return {it: round(value, 3) for it, value in (found | {"most": delays[-1]}).items()}

    def summary(self):
        edits = {it[8:]: n for it, n in self.counts.items() if it.startswith("edited: ")}
        others = (*OTHERS, "troubles of the observer", "gaps of the observer")
        counts = {it: self.counts[it] for it in ("starts", *WRONG, *others)}
        found = {"due": self.due()} | counts | {"edits": edits, "delay": self.figures()}
        return found | {"unmade": dict(sorted(self.unmade.items()))}


def main():
    verdict = Verdict()
    with open(sys.argv[1]) as file:
        verdict.read(file)
    print("\n".join(verdict.found + verdict.untold))
    print(json.dumps(verdict.summary()))


if __name__ == "__main__":
    main()
