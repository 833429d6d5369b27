"""Random lists of a cluster's CronJobs and Jobs, and what their pictures must show."""
import random

from scenarios import START, time
from svg import SVG, bars_of
from zones import NAMED, UTC, changes, marks, place, printed_time, rows, second

SCHEDULES = [
    "* * * * *",
    "*/5 * * * *",
    "0 * * * *",
    "30 2 * * *",
    "*/7 8-18 * * 1-5",
    "15,45 */2 * * *",
    "0 0 * * 0",
]


def name_of(number):
    """Its name; every fifth is too long for its place beside the bars."""
    return f"cron-{number}" + ("-that-has-a-long-name" if number % 5 == 0 else "")


def cron(choice, number):
    return {
        "apiVersion": "batch/v1",
        "kind": "CronJob",
        "metadata": {
            "namespace": f"team-{number % 7}",
            "name": name_of(number),
            "uid": f"uid-{number}",
            "creationTimestamp": time(START - 86400),
        },
        "spec": {
            "schedule": choice.choice(SCHEDULES),
            "concurrencyPolicy": choice.choice(["Allow", "Forbid", "Replace"]),
            "suspend": choice.random() < 0.1,
            "jobTemplate": {
                "spec": {
                    "template": {
                        "spec": {
                            "containers": [{"name": "a", "image": "b"}],
                            "restartPolicy": "Never",
                        }
                    }
                }
            },
        },
    }


def job(choice, owner, number, due, hand):
    """A Job of a CronJob: run for a while, with success or without, or still running."""
    meta = owner["metadata"]
    made = due + choice.choice([0, 0, 1, 5, 40, -30])
    end = made + choice.choice([1, 20, 50, 200, 4000])
    annotations = {"batch.kubernetes.io/cronjob-scheduled-timestamp": time(due)}
    if hand:
        annotations = {"cronjob.kubernetes.io/instantiate": "manual"}
    ended = choice.choice(["Complete", "Complete", "Failed", None])
    status = {}
    if ended:
        status = {
            "conditions": [{"type": ended, "status": "True", "lastTransitionTime": time(end)}]
        }
        if ended == "Complete":
            status["completionTime"] = time(end)
    return {
        "apiVersion": "batch/v1",
        "kind": "Job",
        "metadata": {
            "namespace": meta["namespace"],
            "name": f"{meta['name']}-{due // 60}-{number}",
            "uid": f"job-{meta['name']}-{number}",
            "creationTimestamp": time(made),
            "annotations": annotations,
            "ownerReferences": [
                {
                    "apiVersion": "batch/v1",
                    "kind": "CronJob",
                    "name": meta["name"],
                    "uid": meta["uid"],
                    "controller": True,
                    "blockOwnerDeletion": True,
                }
            ],
        },
        "spec": {
            "template": {
                "spec": {"containers": [{"name": "a", "image": "b"}], "restartPolicy": "Never"}
            }
        },
        "status": status,
    }


def cluster(number, crons, jobs, length):
    choice = random.Random(number)
    owners = [cron(choice, n) for n in range(crons)]
    gone = cron(choice, crons + 1)
    made, owned = [], []
    for n in range(jobs):
        stray, hand = choice.random() < 0.03, choice.random() < 0.05
        owner = gone if stray else choice.choice(owners)
        due = START + 60 * choice.randrange(0, 600)
        made.append(job(choice, owner, n, due, hand))
        if not stray and not hand:
            owned.append(made[-1]["metadata"]["name"])
    return {
        "list": {"apiVersion": "v1", "kind": "List", "items": owners + made},
        "owned": owned,
        "length": length,
    }


def clusters():
    yield cluster(1, 1, 3, "24h")
    yield cluster(2, 3, 40, "90m")
    yield cluster(3, 3, 0, "7d")
    yield cluster(4, 30, 400, "24h")
    yield cluster(5, 300, 1500, "24h")
    yield cluster(6, 3, 25, "500h")
    yield {"list": {"apiVersion": "v1", "kind": "List", "items": []}, "owned": [], "length": "24h"}


def abroad(number, length):
    """CronJobs that go by the clocks of zones."""
    said = cluster(number, len(NAMED), 0, length)
    for one, clock in zip(said["list"]["items"], NAMED):
        one["spec"] |= {"timeZone": clock.name, "suspend": False}
    return said | {"zones": NAMED}


def titles(parts):
    return [part.findtext(f"{SVG}title") for part in parts]


def heads(top, wrong):
    """The name of each CronJob, whole in the title, and with its middle left out where it is too
    long."""
    for head in top.iter(f"{SVG}text"):
        title = head.find(f"{SVG}title")
        if head.get("class") == "h" and title is not None:
            whole = title.text.split(",")[0]
            wanted = whole if len(whole) <= 28 else f"{whole[:14]}\u2026{whole[-13:]}"
            if title.tail != wanted:
                wrong.append(f"{title.tail!r} for {whole}")


def troubles(top, said, lines, wrong):
    """A bar for each Job of one of the CronJobs, a cross for each finding, and the Jobs that
    findings name are marked."""
    bars = bars_of(top, wrong)
    heads(top, wrong)
    names = sorted(title.split(",")[0].split("/")[1] for title in titles(bars))
    if names != sorted(said["owned"]):
        wrong.append(f"{len(names)} bars of {len(said['owned'])} Jobs")
    found = [
        line.split()
        for line in lines
        if line.split()[0] in ("twice", "beside", "undue", "early", "missing")
    ]
    crosses = [
        path
        for path in top.iter(f"{SVG}path")
        if path.get("class") == "skip" and path.find(f"{SVG}title") is not None
    ]
    if len(crosses) != len(found):
        wrong.append(f"{len(crosses)} crosses of {len(found)} findings")
    named = {word for line in found for word in line[2:] if word in set(said["owned"])}
    marked = {
        title.split(",")[0].split("/")[1]
        for bar, title in zip(bars, titles(bars))
        if "ill" in bar.get("class").split()
    }
    if named != marked:
        wrong.append(f"marked: {sorted(marked ^ named)[:5]}")


def starts(top, lines, wrong, clock=UTC, begin=START, named=()):
    """A cell for each minute's line, at its place, with as many starts; the hours by the clock; and
    a mark where one of the clocks that are named is put."""
    told = [line.split() for line in lines if line.startswith("start ")]
    cells = top.findall(f".//{SVG}g[@id='cells']/{SVG}rect")
    first = rows(top, clock, begin, wrong)
    last = first + 3600 * sum(rect.get("class") == "lane" for rect in top.iter(f"{SVG}rect"))
    drawn = [line for line in told if second(line[1]) < last]
    marks(top, changes(named, begin, last), first, wrong)
    if len(cells) != len(drawn):
        wrong.append(f"{len(cells)} cells of {len(drawn)} minutes")
    for cell, title, (_, at, *names) in zip(cells, titles(cells), drawn):
        head, *under = title.split("\n")
        said, count = head.split(", starts: ")
        moment = second(at)
        told_so = (printed_time(said, clock, wrong), int(count), under[:20])
        if told_so != (moment, len(names), names[:20]):
            wrong.append(f"{title!r} of {at} {len(names)} starts")
        if (int(cell.get("x")), int(cell.get("y"))) != place(first, moment):
            wrong.append(f"{at} stands at {cell.attrib}")
