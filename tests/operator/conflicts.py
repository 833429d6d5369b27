"""Claims that are refused since somebody else wrote the CronJob."""
import random

from stage import MINUTES, Stage

ONCE = f"c-{MINUTES + 1}"
TOLD = "cronjob n/c: 2 claims in a row were refused since somebody else wrote it (409); "
TOLD += "reading it and claiming at once"


def refused_times(times):
    """A replica whose first claims are refused so many times, a minute later."""
    stage = Stage()
    stage.cron()
    stage.meddle("PATCH", "/cronjobs/c/status", lambda _: stage.touch(), times)
    stage.run(90)
    return stage


def one_conflict():
    """After a 409 the next sync begins at once, and reads the CronJob from the server."""
    stage = refused_times(1)
    first, *others = stage.claims()[:2]
    yield "the first claim", first.status(), 409
    after = stage.after(first)[0]
    yield "is followed by", after.what, "GET n/cronjobs/c"
    yield "at once", round(after.at - first.heard, 3), 0
    yield "the second claim", [it.status() for it in others], [200]
    yield "within a second", others[0].at - first.at < 1 if others else None, True
    yield "the Jobs that started", [name for name, _ in stage.starts()], [ONCE]
    yield "nobody is told", [it for it in stage.said() if "409" in it], []


def two_conflicts():
    """From the second one on the Job is read too, and claimed without being created."""
    stage = refused_times(2)
    claims = stage.claims()[:3]
    yield "the claims", [it.status() for it in claims], [409, 409, 200]
    words = [it.what for it in stage.after(claims[1])[:3]]
    wanted = ["GET n/cronjobs/c", f"GET n/jobs/{ONCE}", "PATCH n/cronjobs/c/status"]
    yield "what follows the second", words, wanted
    yield "at once", round(stage.after(claims[1])[0].at - claims[1].heard, 3), 0
    yield "people are told", stage.said().count(TOLD), 1
    yield "the Jobs that started", [name for name, _ in stage.starts()], [ONCE]


def a_missing_job():
    """From the second one on a Job that isn't there is created once that was read."""
    stage = Stage()
    stage.cron()

    def take(_):
        stage.touch()
        path = stage.path("jobs", ONCE)
        stage.call("DELETE", path, {"propagationPolicy": "Background"}, "application/json")

    stage.meddle("PATCH", "/cronjobs/c/status", take, 2)
    stage.run(90)
    claims = stage.claims()[:3]
    yield "the claims", [it.status() for it in claims], [409, 409, 200]
    words = [it.what for it in stage.after(claims[1])[:4]]
    wanted = ["GET n/cronjobs/c", f"GET n/jobs/{ONCE}", "POST n/jobs", "PATCH n/cronjobs/c/status"]
    yield "what follows the second", words, wanted
    yield "the Jobs that started", [name for name, _ in stage.starts()], [ONCE]


def many_writes():
    """Nine writes a second, over a line of 45 ms a request, don't keep it from being claimed."""
    stage, dice = Stage(), random.Random("many writes")
    stage.cron()
    stage.slow = 0.0225

    def write():
        stage.touch()
        stage.later(dice.uniform(0.095, 0.127), write)

    stage.later(50, write)
    stage.run(135)
    wanted = [f"c-{MINUTES + it}" for it in (1, 2)]
    yield "the Jobs that started", [name for name, _ in stage.starts()], wanted
    late = [round(late) for _, late in stage.starts()]
    yield "each within its minute", all(it < 60 for it in late), True
    yield "some claims were refused", any(it.status() == 409 for it in stage.claims()), True


CASES = (one_conflict, two_conflicts, a_missing_job, many_writes)
