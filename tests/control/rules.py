"""What the small API server adds to CronJobs and Jobs, and what it refuses, as the real one does.

Objects are plain dictionaries, which nobody changes once they are stored.
"""
import re

NAME = re.compile(r"[a-z0-9]([-a-z0-9]*[a-z0-9])?(\.[a-z0-9]([-a-z0-9]*[a-z0-9])?)*")
TIME = re.compile(r"\d{4}-\d\d-\d\dT\d\d:\d\d:\d\d(?:\.\d+)?(?:Z|[+-]\d\d:\d\d)")
KINDS = {"cronjobs": "CronJob", "jobs": "Job"}
MOST_LETTERS = {"cronjobs": 52, "jobs": 63}
POLICIES = ("Allow", "Forbid", "Replace")
# The first minor versions that keep spec.suspend of a Job, and status.lastSuccessfulTime of a
# CronJob.
SUSPENDS_FROM = 22
TELLS_SUCCESS_FROM = 21
POD = {
    "dnsPolicy": "ClusterFirst",
    "schedulerName": "default-scheduler",
    "securityContext": {},
    "terminationGracePeriodSeconds": 30,
}


class Refusal(Exception):
    """An answer that is no success, with the body that the real server sends."""

    def __init__(self, code, reason, message, details=None):
        super().__init__(message)
        self.code = code
        self.body = {
            "kind": "Status",
            "apiVersion": "v1",
            "metadata": {},
            "status": "Failure",
            "message": message,
            "reason": reason,
            "details": details or {},
            "code": code,
        }
        if reason is None:
            del self.body["reason"]


def details(resource, name):
    return {"name": name, "group": "batch", "kind": resource}


def not_found(resource, name):
    words = f'{resource}.batch "{name}" not found'
    return Refusal(404, "NotFound", words, details(resource, name))


def no_resource():
    return Refusal(404, "NotFound", "the server could not find the requested resource")


def no_event(name):
    words = f'events "{name}" not found'
    return Refusal(404, "NotFound", words, {"name": name, "kind": "events"})


def taken(resource, name, group=".batch"):
    words = f'{resource}{group} "{name}" already exists'
    return Refusal(409, "AlreadyExists", words, details(resource, name))


def conflict(resource, name, why):
    words = f'Operation cannot be fulfilled on {resource}.batch "{name}": {why}'
    return Refusal(409, "Conflict", words, details(resource, name))


def modified(resource, name):
    why = (
        "the object has been modified; please apply your changes to the latest version and try "
        "again"
    )
    return conflict(resource, name, why)


def invalid(resource, name, field, why):
    words = f'{KINDS[resource]}.batch "{name}" is invalid: {field}: {why}'
    cause = {"reason": "FieldValueInvalid", "message": why, "field": field}
    said = {"name": name, "group": "batch", "kind": KINDS[resource], "causes": [cause]}
    return Refusal(422, "Invalid", words, said)


def bad_request(why):
    return Refusal(400, "BadRequest", why)


def expired(why):
    return Refusal(410, "Expired", why)


# ---- defaults


def with_pod_defaults(template):
    """A Pod template with its defaults."""
    meta = {"creationTimestamp": None} | (template.get("metadata") or {})
    return template | {"metadata": meta, "spec": POD | (template.get("spec") or {})}


def cron_spec(spec):
    """The spec of a CronJob with its defaults."""
    defaults = {"concurrencyPolicy": "Allow", "suspend": False}
    defaults |= {"successfulJobsHistoryLimit": 3, "failedJobsHistoryLimit": 1}
    template = spec.get("jobTemplate") or {}
    inner = template.get("spec") or {}
    inner = inner | {"template": with_pod_defaults(inner.get("template") or {})}
    meta = {"creationTimestamp": None} | (template.get("metadata") or {})
    spec = {name: value for name, value in spec.items() if value not in (None, "")}
    return defaults | spec | {"jobTemplate": template | {"metadata": meta, "spec": inner}}


def job_spec(spec, minor):
    """The spec of a Job with its defaults."""
    spec = {name: value for name, value in spec.items() if value is not None}
    if "completions" not in spec and "parallelism" not in spec:
        spec["completions"] = 1
    if minor < SUSPENDS_FROM:
        spec.pop("suspend", None)
        defaults = {}
    else:
        defaults = {"suspend": False, "completionMode": "NonIndexed"}
    template = with_pod_defaults(spec.get("template") or {})
    return defaults | {"parallelism": 1, "backoffLimit": 6} | spec | {"template": template}


def with_own_references(meta):
    """metadata without a reference to an owner that is there twice."""
    found = []
    for it in meta.get("ownerReferences") or []:
        if it not in found:
            found.append(it)
    return meta | {"ownerReferences": found} if found else meta


def with_manager(meta, group, who, sub, now):
    """metadata with the last write of a manager, who is named as clients name themselves; only
    whether it was one of the status is said of its fields."""
    fields = {"f:status" if sub else "f:spec": {}}
    entry = {"manager": who.partition("/")[0] or "unknown", "operation": "Update"}
    entry |= {"apiVersion": group, "time": now, "fieldsType": "FieldsV1", "fieldsV1": fields}
    entry |= {"subresource": sub} if sub else {}
    named = entry["manager"], fields
    others = [
        it for it in meta.get("managedFields") or [] if (it["manager"], it["fieldsV1"]) != named
    ]
    return meta | {"managedFields": [*others, entry]}


def with_pod_labels(job):
    """A Job that has no labels has those of its Pods."""
    labels = job["spec"]["template"]["metadata"].get("labels")
    if job["metadata"].get("labels") or not labels:
        return job
    return job | {"metadata": job["metadata"] | {"labels": labels}}


def with_labels(job, uid, name):
    """A new Job whose Pods carry its uid and its name as labels."""
    spec, own = job["spec"], {"controller-uid": uid, "job-name": name}
    meta = spec["template"]["metadata"]
    template = spec["template"] | {"metadata": meta | {"labels": (meta.get("labels") or {}) | own}}
    spec = spec | {"selector": {"matchLabels": {"controller-uid": uid}}, "template": template}
    return with_pod_labels(job | {"spec": spec})


# ---- what is refused


def controllers(meta):
    return [it for it in meta.get("ownerReferences") or [] if it.get("controller")]


def check_meta(resource, name, meta):
    if not NAME.fullmatch(name) or len(name) > MOST_LETTERS[resource]:
        raise invalid(resource, name, "metadata.name", "Invalid value")
    if len(controllers(meta)) > 1:
        raise invalid(resource, name, "metadata.ownerReferences", "Only one reference can be set")
    for owner in meta.get("ownerReferences") or []:
        for field in ("apiVersion", "kind", "name", "uid"):
            if not owner.get(field):
                raise invalid(resource, name, f"metadata.ownerReferences.{field}", "Required value")
    for part in ("labels", "annotations"):
        if any(not isinstance(value, str) for value in (meta.get(part) or {}).values()):
            raise bad_request(f"metadata.{part}: texts are expected")


def check_count(resource, name, spec, field):
    value = spec.get(field)
    if value is not None and (type(value) is not int or value < 0):
        raise invalid(resource, name, f"spec.{field}", "Invalid value")


def check_pod(resource, name, template):
    spec = template.get("spec") or {}
    if spec.get("restartPolicy") not in ("Never", "OnFailure"):
        raise invalid(resource, name, "template.spec.restartPolicy", "Unsupported value")
    if not spec.get("containers"):
        raise invalid(resource, name, "template.spec.containers", "Required value")


def check_cron(name, cron):
    spec = cron["spec"]
    schedule = spec.get("schedule")
    if not isinstance(schedule, str) or len(schedule.split()) != 5 and schedule[:1] != "@":
        raise invalid("cronjobs", name, "spec.schedule", "Invalid value")
    if spec["concurrencyPolicy"] not in POLICIES:
        raise invalid("cronjobs", name, "spec.concurrencyPolicy", "Unsupported value")
    if not isinstance(spec["suspend"], bool):
        raise bad_request("spec.suspend: a truth value is expected")
    for field in (
        "startingDeadlineSeconds",
        "successfulJobsHistoryLimit",
        "failedJobsHistoryLimit",
    ):
        check_count("cronjobs", name, spec, field)
    check_pod("cronjobs", name, spec["jobTemplate"]["spec"]["template"])
    for field in ("lastScheduleTime", "lastSuccessfulTime"):
        said = (cron.get("status") or {}).get(field)
        if said is not None and not TIME.fullmatch(str(said)):
            raise bad_request(f"status.{field}: a time is expected")


def check_job(name, job):
    for field in ("parallelism", "completions", "backoffLimit", "activeDeadlineSeconds"):
        check_count("jobs", name, job["spec"], field)
    check_pod("jobs", name, job["spec"]["template"])


def check_job_change(name, old, new):
    """Of a Job's spec these can't be changed."""
    for field in ("template", "selector", "completions", "completionMode"):
        if old["spec"].get(field) != new["spec"].get(field):
            raise invalid("jobs", name, f"spec.{field}", "field is immutable")
