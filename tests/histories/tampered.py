"""Histories that were tampered with, each by one wrong that breaks one promise. A wrong takes the
lines of a history and gives others, or None where the history has nothing to do it to; the checker
must tell one of the rules that stand beside it.
"""
import re


def place(lines, test):
    return next((n for n, line in enumerate(lines) if test(line.split(" "))), None)


def after(lines, start, test):
    return next((n for n in range(start + 1, len(lines)) if test(lines[n].split(" "))), None)


def did(word, *answer):
    return lambda words: words[5] == word and words[6] == "ok" and all(a in words for a in answer)


def replaced(lines, n, pattern, new):
    if n is None or not re.search(pattern, lines[n]):
        return None
    return lines[:n] + [re.sub(pattern, new, lines[n], count=1)] + lines[n + 1 :]


def sync_of(lines, start):
    """The places of the lines of the sync that begins with this Take."""
    number, found = lines[start].split(" ")[1], []
    for n in range(start, len(lines)):
        words = lines[n].split(" ")
        if words[1] == number:
            found.append(n)
            if words[5] == "finish":
                return found
    return None


def started(lines, policy=None):
    """The lines of a sync that made a Job."""
    for n, line in enumerate(lines):
        if did("take")(line.split(" ")):
            sync = sync_of(lines, n)
            if sync and any(did("make")(lines[m].split(" ")) for m in sync):
                if not policy or any(
                    f"policy={policy}" in lines[m] and " claim " in lines[m] for m in sync
                ):
                    yield sync


def a_time_twice(lines):
    """The sync that made a Job is made once more, as it was."""
    sync = next(started(lines), None)
    return sync and lines + [lines[n] for n in sync]


def beside_another(lines):
    """Under Forbid the end of a Job is left out, after which another one was made."""
    for sync in started(lines, "Forbid"):
        cron, namespace = (
            lines[sync[0]].split(" ")[4].split("/")[1],
            lines[sync[0]].split(" ")[4].split("/")[0],
        )
        before = [
            n
            for n in range(sync[0])
            if did("endJob")(lines[n].split(" "))
            and lines[n].split(" ")[4].startswith(f"{namespace}/{cron}-")
        ]
        if before:
            return lines[: before[-1]] + lines[before[-1] + 1 :]
    return None


def in_two_hands(lines):
    """Another worker takes a key that is held."""
    n = place(lines, did("take"))
    return (
        n is not None
        and lines[: n + 1]
        + [lines[n].replace(f" {lines[n].split(' ')[1]} Worker", " 99 Worker", 1)]
        + lines[n + 1 :]
        or None
    )


def calls_swapped(lines):
    """A worker claims before it has read what runs."""
    n = place(lines, did("seeActive"))
    m = n is not None and after(
        lines, n, lambda words: words[1] == lines[n].split(" ")[1] and words[5] == "claim"
    )
    if not m:
        return None
    lines = list(lines)
    lines[n], lines[m] = lines[m], lines[n]
    return lines


def a_version_left_out(lines):
    n = place(lines, did("endJob"))
    return (
        n is not None
        and replaced(lines, n, r" v=(\d+)", lambda found: f" v={int(found[1]) + 1}")
        or None
    )


def a_uid_again(lines):
    n = place(lines, did("make"))
    return replaced(lines, n, r" uid=[0-9a-f-]+", " uid=00000000-0000-0000-0000-000000000001")


def the_line_overtaken(lines):
    """Two keys are taken in the other order."""
    takes = [n for n, line in enumerate(lines) if did("take")(line.split(" "))]
    for n, m in zip(takes, takes[1:]):
        if lines[n].split(" ")[4] != lines[m].split(" ")[4] and m == n + 1:
            a, b = lines[n].split(" ")[4], lines[m].split(" ")[4]
            return lines[:n] + [lines[n].replace(a, b), lines[m].replace(b, a)] + lines[m + 1 :]
    return None


def an_event_lost(lines):
    n = place(lines, lambda words: did("watch")(words) and int(words[7]) > 0)
    return replaced(lines, n, r" (ADDED|MODIFIED|DELETED):\S+", "")


def unseen_in_the_listing(lines):
    n = place(lines, lambda words: did("seeJobs")(words) and int(words[7]) > 0)
    return replaced(lines, n, r" (\d+) \S+@\d+", lambda found: f" {int(found[1]) - 1}")


def not_found_alive(lines):
    n = place(lines, lambda words: did("seeActive")(words) and int(words[7]) > 0)
    return replaced(lines, n, r" (\d+) \S+@\d+", lambda found: f" {int(found[1]) - 1} -")


def ended_twice(lines):
    n = place(lines, did("endJob"))
    return n is not None and lines[: n + 1] + [lines[n]] + lines[n + 1 :] or None


def a_stale_claim(lines):
    n = place(
        lines,
        lambda words: did("claim")(words)
        and " seen=1 " not in " ".join(words)
        and "seen=-" not in words,
    )
    return replaced(lines, n, r" seen=(\d+)", lambda found: f" seen={int(found[1]) - 1}")


def a_time_not_yet_over(lines):
    n = place(lines, lambda words: did("claim")(words) and words[7] != "none")
    return replaced(lines, n, r" ok \d{4}", " ok 2199")


def not_its_role(lines):
    n = place(lines, did("endJob"))
    return replaced(lines, n, r" \d+ Runner ", " 0 User ")


WRONGS = [
    (a_time_twice, {"once"}),
    (beside_another, {"alone"}),
    (in_two_hands, {"exclusive"}),
    (calls_swapped, {"phases"}),
    (a_version_left_out, {"store", "versions"}),
    (a_uid_again, {"made-job"}),
    (the_line_overtaken, {"queue-line"}),
    (an_event_lost, {"events"}),
    (unseen_in_the_listing, {"lagging-listing"}),
    (not_found_alive, {"live-read"}),
    (ended_twice, {"job-end"}),
    (a_stale_claim, {"claim-inputs"}),
    (a_time_not_yet_over, {"claim-time"}),
    (not_its_role, {"roles"}),
]


def numbered(lines):
    """The lines with their places counted anew, so that nothing but the wrong is to be seen."""
    return "".join(f"{n} {line.split(' ', 1)[1]}\n" for n, line in enumerate(lines, 1))
