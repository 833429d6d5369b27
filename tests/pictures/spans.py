"""From when to when a picture of a cluster is: a Job that hangs is drawn up to the moment that is
asked about, and `--since` begins there."""
SVG = "{http://www.w3.org/2000/svg}"
BEGIN, NOW, SINCE = "2024-01-01T00:00:00Z", "2024-01-04T00:00:00Z", "2024-01-03T00:00:00Z"
LATEST = "2024-01-01T01:00:00Z"
OWNER = {"apiVersion": "batch/v1", "kind": "CronJob", "name": "nightly", "uid": "u-1"}
OWNER |= {"controller": True}


def job(name, at, status):
    """A Job that was made for that moment."""
    note = {"batch.kubernetes.io/cronjob-scheduled-timestamp": at}
    meta = {"namespace": "default", "name": name, "uid": name, "creationTimestamp": at}
    meta |= {"ownerReferences": [OWNER], "annotations": note}
    return {"apiVersion": "batch/v1", "kind": "Job", "metadata": meta, "status": status}


def listed(*jobs):
    """A CronJob with these Jobs, as a list."""
    meta = {"namespace": "default", "name": "nightly", "uid": "u-1", "creationTimestamp": BEGIN}
    pods = {"spec": {"template": {"spec": {"restartPolicy": "Never"}}}}
    cron = {"apiVersion": "batch/v1", "kind": "CronJob", "metadata": meta}
    cron |= {"spec": {"schedule": "0 * * * *", "jobTemplate": pods}, "status": {}}
    return {"apiVersion": "v1", "kind": "List", "items": [cron, *jobs]}


DONE = {
    "completionTime": "2024-01-01T00:10:00Z",
    "conditions": [
        {"type": "Complete", "status": "True", "lastTransitionTime": "2024-01-01T00:10:00Z"}
    ],
}
ENDED = job("nightly-28401120", BEGIN, DONE)
HANGS = job("nightly-28401180", LATEST, {"active": 1})
# What is asked about, by which words; the caption, and what the bars' titles have.
CASES = [
    ([ENDED, HANGS], [], f"{BEGIN} to {LATEST}", ["Complete at", f"not ended at {LATEST}"]),
    ([ENDED, HANGS], ["--now", NOW], f"{BEGIN} to {NOW}", ["Complete at", f"not ended at {NOW}"]),
    (
        [ENDED, HANGS],
        ["--now", NOW, "--since", SINCE],
        f"{SINCE} to {NOW}",
        [f"not ended at {NOW}"],
    ),
    ([ENDED, HANGS], ["--now", NOW, "--since=-1d"], f"{SINCE} to {NOW}", [f"not ended at {NOW}"]),
    ([ENDED], ["--now", BEGIN], f"{BEGIN} to 2024-01-01T00:10:00Z", ["Complete at"]),
    ([], ["--now", NOW], f"{NOW} to {NOW}", []),
    ([], [], "Nothing to show", []),
]


def spanned(top, caption, wanted, bars, wrong):
    """The caption says from when to when, and each bar how it ends."""
    said = next(it.text for it in top.iter(f"{SVG}text") if it.get("class") == "h")
    if said != caption:
        wrong.append(f"{said!r}, not {caption!r}")
    if len(bars) != len(wanted):
        wrong.append(f"{len(bars)} bars, not {len(wanted)}")
    for bar, words in zip(bars, wanted):
        title = bar.find(f"{SVG}title").text
        if words not in title:
            wrong.append(f"{title!r} without {words!r}")
