"""Lists of which an answer is too large, or doesn't come."""
import re

from stage import POD, TIME, Stage

PAGE = re.compile(r"\blimit=(\d+)")
# A CronJob of so many bytes, and an answer's limit.
LARGE, MOST = 100_000, 800_000


def large(stage, name, schedule="* * * * *", **spec):
    container = {"name": "c", "image": "i", "env": [{"name": "E", "value": "x" * LARGE}]}
    pod = {"restartPolicy": "Never", "containers": [container]}
    template = {"metadata": {"labels": {"team": "x"}}, "spec": {"template": {"spec": pod}}}
    return stage.cron(name, schedule, template, **spec)


def pages(stage, resource="cronjobs"):
    """The limits of the pages that were asked for."""
    found = [it for it in stage.of("GET", f"/{resource}\\?") if "watch=" not in it.path]
    return [int(PAGE.search(it.path)[1]) for it in found if PAGE.search(it.path)], found


def large_list():
    """40 suspended ones of 100 KB, and answers of at most 800 KB: those that are due start."""
    stage = Stage()
    stage.scenario.most_bytes = MOST
    for number in range(40):
        large(stage, f"large-{number:02}", suspend=True)
    for name in "abc":
        stage.cron(name)
    stage.run(130)
    limits, found = pages(stage)
    yield "the limits", limits[:4], [500, 125, 31, 7]
    yield "the later pages have it too", set(limits[4:]), {7}
    yield "at once", len(found) > 3 and found[3].at - found[0].at < 0.2, True
    yield "all is listed", any("watching 43 CronJobs" in it for it in stage.said()), True
    late = [late for name, late in stage.starts()]
    yield "Jobs that started", len(late), 6
    yield "on time", max(late, default=99) < 2, True


def large_and_due():
    """A CronJob of more than 64 KiB is read before its Job is created, and before it is started."""
    stage = Stage()
    cron = large(stage, "c", schedule="* * * * *")
    notes = {TIME: "2024-01-01T00:00:00Z", "cronsim/policy": "Allow", "cronsim/held": "true"}
    labels = {"cronsim/uid": cron["metadata"]["uid"]}
    stage.is_claimed(cron, stage.job("c-28401120", cron, notes, labels, suspend=True))
    stage.run(70)
    gets = [it.at for it in stage.of("GET", "/cronjobs/c$")]
    made, started = stage.of("POST", "/jobs$")[:1], stage.of("PATCH", "/jobs/c-28401120")[:1]
    yield "it is read before a start", [any(at < it.at for at in gets) for it in started], [True]
    read = [any(it.at - 5 < at <= it.at for at in gets) for it in made]
    yield "it is read before a creation", read, [True]
    spec = cron["spec"]["jobTemplate"]["spec"]["template"]["spec"]
    yield "the Job", [it.body["spec"]["template"]["spec"] == spec for it in made], [True]
    yield "the Jobs that started", len(stage.starts()), 2


def small_and_due():
    """Another one isn't read for it."""
    stage = Stage()
    template = {"spec": {"template": POD}, "metadata": {"annotations": {"a": "x" * 50_000}}}
    stage.cron(template=template)
    stage.run(70)
    yield "it isn't read", [it.what for it in stage.of("GET", "/cronjobs/c$")], []
    yield "the Jobs that started", len(stage.starts()), 1


def no_answer_to_a_page():
    """The same page is asked for again with a quarter of the limit, which the later ones keep."""
    stage = Stage()
    stage.scenario.most_items = stage.server.most_items = 3
    for number in range(10):
        stage.cron(f"c{number}", suspend=True)
    stage.meddle("GET", r"/cronjobs\?.*continue=", {"error": "read timed out"}, 1)
    stage.run(20)
    limits, found = pages(stage)
    yield "the limits", limits, [500, 500, 125, 125, 125]
    tokens = [it.path.partition("continue=")[2] for it in found]
    yield "the same page", tokens[1:2] == tokens[2:3] != [""], True
    yield "all is listed", any("watching 10 CronJobs" in it for it in stage.said()), True


def the_next_list():
    """A list anew begins with 500 again."""
    stage = Stage()
    stage.cron(suspend=True)
    stage.meddle("GET", r"/cronjobs\?limit", {"status": 413}, 2)
    stage.begin()
    stage.go(20)
    replica = stage.replicas[0]
    for number in list(replica.watches):
        stage.end_watch(replica, number)
    stage.touch()
    stage.touch()
    stage.server.forget()
    stage.go(20)
    stage.end()
    yield "the limits", pages(stage)[0], [500, 125, 31, 500]


def never_small_enough():
    """With a limit of 1 it goes on asking, not without a pause, and the Jobs are listed."""
    stage = Stage()
    stage.cron()
    stage.meddle("GET", r"/cronjobs\?", {"status": 413})
    stage.run(60)
    limits, _ = pages(stage)
    yield "the limits", limits[:5], [500, 125, 31, 7, 1]
    yield "with a pause", len(limits) < 60, True
    yield "people are told", any("413" in it for it in stage.said()), True


CASES = (large_list, large_and_due, small_and_due, no_answer_to_a_page, the_next_list)
CASES += (never_small_enough,)
