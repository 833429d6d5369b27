"""The end of a replica, and the time at which a CronJob's Job succeeded last."""
from server import stamp
from stage import MINUTES, POD, T0, TIME, Stage, ref_of

FIRST = f"c-{MINUTES + 1}"
EARLIER, LATER = "2023-12-31T00:00:00Z", "2024-06-01T00:00:00Z"


def stop_among_many():
    """A sync that has claimed nothing ends at its next answer, whatever its status names."""
    stage = Stage()
    stage.cron("c", "59 * * * *")
    refs = [{"kind": "Job", "name": f"none-{it}", "uid": f"u-{it}"} for it in range(1000)]
    stage.has_status("c", active=refs)
    stage.begin()
    stage.slow = 0.01
    stage.go(3)
    before = len(stage.asked)
    stage.give_stop()
    stage.go(30)
    yield "it was at work", 3 < before < 900, True
    yield "nothing is asked any more", [it.what for it in stage.asked[before:]], []
    yield "its status", stage.ended and stage.ended[0], "status 0"
    yield "at the next answer", stage.ended and stage.ended[1] - stage.stop_at < 0.1, True


def stop_at(method, part, policy="Allow"):
    """A replica that is told to stop while its first such request is under way."""
    stage = Stage()
    cron = stage.cron(concurrencyPolicy=policy)
    job = stage.job(f"c-{MINUTES}", cron, {TIME: stamp(T0), "test/run": "900"})
    stage.has_status("c", lastScheduleTime=stamp(T0), active=[ref_of(job)])
    stage.meddle(method, part, lambda _: stage.give_stop(), 1)
    stage.begin()
    stage.go(80)
    return stage, [it.what for it in stage.asked if it.at >= (stage.stop_at or 0)]


def stop_after_a_creation():
    """One that has created a Job, and not claimed it, claims nothing."""
    stage, after = stop_at("POST", "/jobs$")
    yield "nothing more is asked", after, []
    yield "its status", stage.ended and stage.ended[0], "status 0"
    yield "nothing started", stage.starts(), []


def stop_after_a_claim():
    """One that has claimed goes on to the start, and under Replace to the deletions before it."""
    for policy, wanted in (
        ("Allow", [f"PATCH n/jobs/{FIRST}"]),
        ("Replace", [f"DELETE n/jobs/c-{MINUTES}", f"PATCH n/jobs/{FIRST}"]),
    ):
        stage, after = stop_at("PATCH", "/cronjobs/c/status", policy)
        after = [it for it in after if "/events" not in it]
        yield f"{policy}: what is asked then", after, wanted
        yield f"{policy}: its status", stage.ended and stage.ended[0], "status 0"
        yield f"{policy}: what started", [name for name, _ in stage.starts()], [FIRST]


def stop_at_a_refused_claim():
    """One whose claim is refused has claimed nothing."""
    stage = Stage()
    stage.cron()
    stage.meddle("PATCH", "/cronjobs/c/status", lambda _: stage.touch() or stage.give_stop(), 1)
    stage.begin()
    stage.go(80)
    yield "nothing more", [it.what for it in stage.asked if it.at >= (stage.stop_at or 0)], []
    yield "its status", stage.ended and stage.ended[0], "status 0"


def stop_at_rest():
    """One that does nothing ends at once."""
    stage = Stage()
    stage.cron()
    stage.begin()
    stage.go(30)
    stage.give_stop()
    stage.go(1)
    yield "its status", stage.ended and stage.ended[0], "status 0"


# ---- status.lastSuccessfulTime


def ended_job(stage, cron, number, ended, kind="Complete"):
    """A Job of a CronJob that has ended."""
    job = stage.job(f"c-{number}", cron, {TIME: stamp(60 * number)})
    key = "n", f"c-{number}"
    status = {"conditions": [{"type": kind, "status": "True", "lastTransitionTime": ended}]}
    status |= {"startTime": ended} | ({"completionTime": ended} if kind == "Complete" else {})
    old = stage.server.objects["jobs"][key]
    stage.server.put("jobs", key, old, old | {"status": status})
    return job


def success():
    """It is the end of the last Job that succeeded, by a tidying and by a claim."""
    stage = Stage()
    stage.cron(template=running("12"))
    stage.begin()
    stage.go(125)
    job = stage.server.objects["jobs"].get(("n", FIRST), {"status": {}})
    ended = job["status"].get("completionTime")
    yield "after the first Job", stage.status().get("lastSuccessfulTime"), ended
    stage.go(60)
    job = stage.server.objects["jobs"].get(("n", f"c-{MINUTES + 2}"), {"status": {}})
    yield "after the second one", stage.status().get("lastSuccessfulTime"), success_of(job)
    stage.end()
    yield "the Jobs have ended", [bool(ended), bool(success_of(job))], [True, True]


def success_of(job):
    return job["status"].get("completionTime")


def running(said):
    """A template of Jobs that run so many seconds."""
    return {"metadata": {"annotations": {"test/run": said}}, "spec": {"template": POD}}


def no_success():
    """A Job that failed is none."""
    stage = Stage()
    stage.cron(template=running("12 Failed"))
    stage.run(125)
    yield "nothing is said", stage.status().get("lastSuccessfulTime"), None
    yield "the Job has failed", "lastScheduleTime" in stage.status(), True


def greatest_success():
    """Of several it is the greatest, where nothing else is to be written, and never goes back."""
    last = "2023-12-31T23:58:30Z"
    for has, wanted in ((None, last), (EARLIER, last), (LATER, LATER)):
        stage = Stage()
        cron = stage.cron("c", "0 12 * * *", successfulJobsHistoryLimit=5)
        ended_job(stage, cron, MINUTES - 9, "2023-12-31T23:52:10Z")
        ended_job(stage, cron, MINUTES - 4, last)
        ended_job(stage, cron, MINUTES - 2, "2023-12-31T23:58:10Z")
        ended_job(stage, cron, MINUTES - 1, "2023-12-31T23:59:50Z", "Failed")
        stage.has_status("c", **({"lastSuccessfulTime": has} if has else {"active": None}))
        stage.run(30)
        yield f"where it was {has}", stage.status().get("lastSuccessfulTime"), wanted


def success_of_deleted():
    """It is written before the Job goes by the history limits."""
    stage = Stage()
    stage.cron(template=running("3"), successfulJobsHistoryLimit=0)
    stage.run(140)
    said = stage.status().get("lastSuccessfulTime") or ""
    yield "it is said", said[:17] in ("2024-01-01T00:01:", "2024-01-01T00:02:"), True
    yield "the Job is gone", ("n", FIRST) in stage.server.objects["jobs"], False


def older_servers():
    """Of batch/v1beta1 it isn't written."""
    stage = Stage(beta=True)
    stage.cron(template=running("5"))
    stage.run(125)
    said = [it for it in stage.of("PATCH", "/status") if "lastSuccessful" in str(it.body)]
    yield "nothing is said", said, []
    yield "the Jobs that started", len(stage.starts()), 2


CASES = (stop_among_many, stop_after_a_creation, stop_after_a_claim, stop_at_a_refused_claim)
CASES += (stop_at_rest, success, no_success, greatest_success, success_of_deleted, older_servers)
