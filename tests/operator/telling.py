"""What is told on standard error, and what a replica says of itself."""
import json
import re
import subprocess

from server import stamp
from stage import POD, Stage

LINE = re.compile(r"(\d{4}-\d\d-\d\dT\d\d:\d\d:\d\dZ) (info|warning|error) (.*)")
MEMBERS = "syncs starts conflicts refusedCreates missed queued cronJobs jobs underWay synced ready "
MEMBERS += "whyNotReady healthy whyNotHealthy watchAges lastStart clockOffset delay"


def asked(stage):
    """What it says of itself now."""
    before = len(stage.printed)
    stage.give(stage.replicas[0], '{"metrics":true}')
    found = [it for _, it in stage.printed[before:]]
    return found[0].get("metrics") if found else None


def metrics():
    """It is answered at once, before and after all is listed."""
    stage = Stage()
    for name in "abc":
        stage.cron(name)
    stage.begin()
    early = asked(stage)
    yield "at once", early is not None, True
    yield "not ready yet", (early or {}).get("ready"), False
    yield "and why", bool((early or {}).get("whyNotReady")), True
    stage.meddle("PATCH", "/cronjobs/a/status", lambda _: stage.touch("a"), 1)
    stage.go(120)
    found = asked(stage) or {}
    stage.end()
    yield "its members", sorted(found), sorted(MEMBERS.split())
    yield "starts", found.get("starts"), 6
    yield "conflicts", found.get("conflicts"), 1
    counts = {"cronJobs": 3, "jobs": 6, "missed": 0, "queued": 0, "refusedCreates": 0}
    counts["underWay"] = 0
    yield "counts", {it: found.get(it) for it in counts}, counts
    yield "its state", [found.get(it) for it in ("synced", "ready", "healthy")], [True] * 3
    yield "syncs", (found.get("syncs") or 0) >= 6, True
    odd = [it for it in stage.said() if "malformed" in it or "is none" in it]
    yield "no line of them is told", odd, []


def levels():
    """A line has the time and a level."""
    stage = Stage()
    stage.cron("a", "1 * * * *")
    stage.meddle("PATCH", "/jobs/", {"error": "x"}, 1)
    stage.run(90)
    found = [LINE.fullmatch(it) for it in stage.lines()]
    bare = [line for line, it in zip(stage.lines(), found) if not it]
    yield "each has both", bare, []
    listed = [it[1] for it in found if it and it[3].startswith("watching 1 CronJob")]
    yield "the time of one", listed, ["2024-01-01T00:00:05Z"]
    started = [it[2] for it in found if it and it[3].startswith("cronjob n/a: started job")]
    yield "a start's level", started, ["info"]


def levels_of_trouble():
    """What goes wrong is a warning or an error."""
    stage = Stage()
    stage.meddle("GET", r"/cronjobs\?", {"error": "connection refused"})
    stage.run(60)
    found = [LINE.fullmatch(it) for it in stage.lines()]
    told = {it[2] for it in found if it and "connection refused" in it[3]}
    yield "its level", bool(told) and told <= {"warning", "error"}, True


def as_json():
    """With --log json they are members."""
    stage = Stage("--log", "json", "--replica", "r")
    stage.cron("a", "1 * * * *")
    stage.run(90)
    found = [json.loads(it) for it in stage.lines()]
    members = {tuple(sorted(it)) for it in found}
    yield "members", members, {("level", "message", "replica", "time")}
    yield "replica", {it["replica"] for it in found}, {"r"}
    started = [it for it in found if "started job" in it["message"]]
    words = [(it.get("level"), it.get("time", "")[:16], it["message"]) for it in started]
    message = "cronjob n/a: started job n/a-28401121"
    yield "a start", words, [("info", "2024-01-01T00:01", message)]


def dry_run():
    """A refused CronJob is told in the words of `check --explain`."""
    for fault in ({"schedule": "61 * * * *"}, {"concurrencyPolicy": "Sometimes"}):
        stage, field = Stage("--dry-run"), next(iter(fault))
        spec = {"schedule": "* * * * *", "concurrencyPolicy": "Allow", "suspend": False} | fault
        spec["jobTemplate"] = {"spec": {"template": POD}}
        meta = {"namespace": "n", "name": "bad", "uid": "u-bad", "generation": 1}
        meta["creationTimestamp"] = stamp(stage.clock.now)
        item = {"kind": "CronJob", "apiVersion": "batch/v1", "metadata": meta, "spec": spec}
        words = [str(stage.program), "check", "-", "--explain"]
        ran = subprocess.run(words, input=json.dumps(item), capture_output=True, text=True)
        wanted = [it for it in ran.stderr.splitlines() if re.match(r"[a-z]+\.[\w.]+: ", it)]
        yield f"{field}: check finds it", len(wanted), 1
        stage.server.put("cronjobs", ("n", "bad"), None, item | {"status": {}})
        stage.run(90)
        told = [it for it in stage.said() if "cronjob n/bad" in it and wanted[0] in it]
        yield f"{field}: it is told", len(told), 1


def passed_by():
    """Due times before the one that gets a Job are counted in a line, once."""
    stage = Stage()
    stage.cron("a")
    stage.has_status("a", lastScheduleTime="2023-12-31T23:55:00Z")
    stage.run(130)
    words = "cronjob n/a: due times passed by since 2023-12-31T23:55:00Z: 4; "
    words += "only the latest, 2024-01-01T00:00:00Z, gets a job"
    yield "told once", [it for it in stage.said() if "passed by" in it], [words]


CASES = (metrics, levels, levels_of_trouble, as_json, dry_run, passed_by)
