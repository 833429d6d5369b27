"""A client of an API server that counts what it sends, and the server's own counts."""
import json
import re
import sys
import threading
from collections import Counter

try:
    from kubernetes import client, config
except ImportError:
    sys.exit("cluster: no Python client of Kubernetes: install python3-kubernetes")

MERGE = "application/merge-patch+json"
RESOURCES = ("cronjobs", "jobs", "events")
ROW = re.compile(r"apiserver_request_total\{(.*?)\} (\S+)")
LABEL = re.compile(r'(\w+)="([^"]*)"')
SILENCE = 400
NOT_COUNTED = ("LIST", "WATCH")


def counted_as(method, path):
    """The resource and the verb by which the server counts a request."""
    words = path.partition("?")[0].strip("/").split("/")
    resource = next((it for it in RESOURCES if it in words), None)
    if words[-1] == resource:
        method = {"GET": "LIST", "DELETE": "DELETECOLLECTION"}.get(method, method)
    return resource, method


class Api:
    """The API server of a kubeconfig. Each request is sent once."""

    def __init__(self, kubeconfig):
        settings = client.Configuration()
        config.load_kube_config(kubeconfig, client_configuration=settings)
        settings.retries, settings.connection_pool_maxsize = False, 16
        self.client = client.ApiClient(settings)
        self.client.user_agent = "cronsim-test"
        self.sent, self.lock = Counter(), threading.Lock()
        self.version = self.get("/version")["gitVersion"]
        kinds = {it["name"] for it in self.get("/apis/batch/v1")["resources"]}
        self.cron_version = "batch/v1" if "cronjobs" in kinds else "batch/v1beta1"

    def ask(self, method, path, body=None, kind="application/json", silence=30):
        """Sends a request; the response as it comes."""
        headers = {"Content-Type": kind, "Accept": "application/json"}
        return self.client.call_api(
            path,
            method,
            header_params=headers,
            body=body,
            auth_settings=["BearerToken"],
            _preload_content=False,
            _return_http_data_only=True,
            _request_timeout=(10, silence),
        )

    def call(self, method, path, body=None, kind="application/json"):
        """Sends a request; its status, and the answer's value or words."""
        with self.lock:
            self.sent[counted_as(method, path)] += 1
        try:
            answer = self.ask(method, path, body, kind)
        except client.ApiException as fault:
            if not fault.status:
                raise
            return fault.status, fault.body
        try:
            return answer.status, json.loads(answer.data)
        except ValueError:
            return answer.status, answer.data.decode()

    def get(self, path):
        status, value = self.call("GET", path)
        if status != 200:
            raise OSError(f"GET {path}: {status} {str(value)[:200]}")
        return value

    def events(self, path):
        """The events of a watch, until it ends."""
        rest = b""
        for data in self.ask("GET", path, silence=SILENCE).stream(None):
            *lines, rest = (rest + data).split(b"\n")
            for line in filter(None, lines):
                yield json.loads(line)

    def path(self, namespace, resource, name=""):
        """The path of the objects of a namespace, or of one of them."""
        version = self.cron_version if resource == "cronjobs" else "batch/v1"
        return f"/apis/{version}/namespaces/{namespace}/{resource}" + (f"/{name}" if name else "")

    def counts(self):
        """The requests so far that others sent, by resource and verb; of none if nobody counts."""
        status, text = self.call("GET", "/metrics")
        if status != 200 or not isinstance(text, str):
            return None
        found = Counter()
        for labels, value in ROW.findall(text):
            labels = dict(LABEL.findall(labels))
            if labels.get("resource") in RESOURCES and labels["verb"] not in NOT_COUNTED:
                found[labels["resource"], labels["verb"]] += int(float(value))
        with self.lock:
            found.subtract({it: count for it, count in self.sent.items() if it in found})
        return found
