"""Why a due time has no Job that ran: by what people were told, in Events and in the replicas'
lines.

    told of the time   an Event or a line names it, as `no replica claimed its time ..` does
    passed by          a line counts the times between two, of which only the latest has a Job
    edited             its CronJob was deleted within some seconds
    deleted            its Job was deleted by a user before it ran
    Forbid             a Job of the CronJob ran then, which an Event JobAlreadyActive tells
    refused            an Event FailedCreate tells of a creation at that time
"""
import re

TIME = re.compile(r"\d{4}-\d\d-\d\dT\d\d:\d\d:00Z")
WORDS = re.compile(r"cronjob [^/ ]+/([^: ]+): ")
PASSED = r"due times passed by since ([^:]+(?::\d\d:\d\dZ)?): \d+; only the latest, (\S+), gets"
# Seconds: how soon behind its due time the end of a CronJob explains that there is no Job, and by
# how much an Event may come later than the time.
SOON, LATE = 10, 120


class Told:
    """What was told: times by the names of CronJobs, and spans of Events by their uids.

    `second_of` reads a time.
    """

    def __init__(self, second_of):
        self.second_of, self.named, self.events, self.passed = second_of, set(), {}, {}

    def see_event(self, item):
        about = item["involvedObject"]
        self.named |= {(about["name"], self.second_of(it)) for it in TIME.findall(item["message"])}
        first, last = (item.get(it) for it in ("firstTimestamp", "lastTimestamp"))
        if first and last:
            span = item["reason"], self.second_of(first), self.second_of(last)
            self.events.setdefault(about["uid"], []).append(span)

    def see_line(self, text):
        found = WORDS.search(text)
        if found:
            said = text[found.end() :]
            self.see_passed(found[1], said)
            self.named |= {(found[1], self.second_of(it)) for it in TIME.findall(said)}

    def see_passed(self, name, said):
        found = re.match(PASSED, said)
        if found:
            since = self.second_of(found[1]) if found[1][0].isdigit() else 0
            self.passed.setdefault(name, []).append((since, self.second_of(found[2])))

    def was_passed(self, name, due):
        return any(since < due < latest for since, latest in self.passed.get(name, ()))

    def has_event(self, uid, reason, due):
        """Whether an Event of this reason was told at a time, or somewhat later."""
        spans = self.events.get(uid, ())
        return any(it[0] == reason and it[1] - LATE <= due <= it[2] for it in spans)

    def why(self, uid, cron, due, jobs, by_users):
        """What was told of a due time of a CronJob with these Jobs; of none where nothing was."""
        if (cron.name, due) in self.named:
            return "told of the time"
        if self.was_passed(cron.name, due):
            return "passed by"
        if cron.gone is not None and cron.gone < due + SOON:
            return "edited"
        if any(it.time == due and it.item["metadata"]["uid"] in by_users for it in jobs):
            return "deleted"
        if self.has_event(uid, "JobAlreadyActive", due) and any(it.ran_at(due) for it in jobs):
            return "Forbid"
        return "refused" if self.has_event(uid, "FailedCreate", due) else None
