"""The cluster's client: the official one of Python, whose requests are sent once, and whose
connections find out that they are dead.
"""
import math
import os
import socket
import subprocess
import sys
import time

from cronsim_control.common import VOICE, one_line, seconds, words_of

# As many requests as are under way at once.
REQUESTS = 16
# The seconds to the first byte of an answer where the connection has answered before.
AGAIN = seconds("AGAIN", 10)
# The Python of Debian's packages, and what says that this runs by it already.
OTHER_PYTHON, IS_OTHER = "/usr/bin/python3", "CRONSIM_CONTROL_BY_OTHER_PYTHON"
# TCP itself finds out within some 20 s that a peer is gone, where the platform can.
KEPT_ALIVE = (
    ("TCP_KEEPIDLE", 15),
    ("TCP_KEEPINTVL", 5),
    ("TCP_KEEPCNT", 3),
    ("TCP_USER_TIMEOUT", 10_000),
)
SOCKET_OPTIONS = [
    (socket.IPPROTO_TCP, socket.TCP_NODELAY, 1),
    (socket.SOL_SOCKET, socket.SO_KEEPALIVE, 1),
    *(
        (socket.IPPROTO_TCP, getattr(socket, name), value)
        for name, value in KEPT_ALIVE
        if hasattr(socket, name)
    ),
]


class Wary:
    """What is added to urllib3's connections. One that has answered before may have died without a
    word, so its next answer has to begin soon. Where one is silent, those as old aren't used again.
    """

    opened, has_answered = math.inf, False
    # When a connection was found silent, and whether this is urllib3 1.
    doubted, is_first = -math.inf, True

    def connect(self):
        self.opened, self.has_answered = time.monotonic(), False
        super().connect()

    def getresponse(self):
        # (urllib3 1 sets the socket's time-out before this, urllib3 2 in here the connection's)
        sock, usual = self.sock, self.sock.gettimeout() if self.is_first else self.timeout
        if self.has_answered:
            self.timeout = min(AGAIN, usual)
            sock.settimeout(self.timeout)
        try:
            response = super().getresponse()
        except socket.timeout:
            doubt()
            if self.has_answered:
                said = f"no answer for {AGAIN:g} s on a connection that had answered before"
                raise OSError(said) from None
            raise
        if sock.fileno() >= 0:
            sock.settimeout(usual)
        self.has_answered = True
        return response


class WaryPool:
    """What is added to urllib3's pools: they hand out no connection in which nobody trusts."""

    def _get_conn(self, timeout=None):
        found = super()._get_conn(timeout)
        if found.opened > Wary.doubted:
            return found
        found.close()
        return self._new_conn()


def doubt():
    """From now on no connection that stands now is used for another request."""
    Wary.doubted = time.monotonic()


def make_wary(urllib3, manager):
    """Has the connections of a pool manager be wary, and kept alive by TCP."""
    Wary.is_first = urllib3.__version__.startswith("1.")
    for scheme, pool in (
        ("http", urllib3.HTTPConnectionPool),
        ("https", urllib3.HTTPSConnectionPool),
    ):
        line = type("WaryConnection", (Wary, pool.ConnectionCls), {})
        wary = type("WaryConnectionPool", (WaryPool, pool), {"ConnectionCls": line})
        manager.pool_classes_by_scheme = {**manager.pool_classes_by_scheme, scheme: wary}
    manager.connection_pool_kw["socket_options"] = SOCKET_OPTIONS


def import_client():
    """The modules of the Python client. Where this Python has none and Debian's has, that one runs
    this instead."""
    is_other = os.environ.pop(IS_OTHER, None)
    try:
        import kubernetes.client
        import kubernetes.config
        import urllib3
    except ImportError:
        test = "import importlib.util as it, sys; sys.exit(it.find_spec('kubernetes') is None)"
        if not is_other and os.access(OTHER_PYTHON, os.X_OK):
            if subprocess.run([OTHER_PYTHON, "-c", test]).returncode == 0:
                os.environ[IS_OTHER] = "1"
                os.execv(OTHER_PYTHON, [OTHER_PYTHON, os.path.abspath(sys.argv[0]), *sys.argv[1:]])
        VOICE.fail(
            f"{sys.executable} has no Python client of Kubernetes: install python3-kubernetes, or "
            "kubernetes by pip"
        )
    return kubernetes, urllib3


def make_client(kubeconfig, context):
    """A client of the cluster that never sends a request again by itself, and urllib3."""
    kubernetes, urllib3 = import_client()
    config, settings = kubernetes.config, kubernetes.client.Configuration()
    in_cluster = "KUBERNETES_SERVICE_HOST" in os.environ
    try:
        if kubeconfig is None and context is None and in_cluster:
            config.load_incluster_config(client_configuration=settings)
        else:
            config.load_kube_config(kubeconfig, context, settings)
    except (config.ConfigException, OSError) as fault:
        VOICE.fail(f"{kubeconfig + ': ' if kubeconfig else ''}{one_line(fault)}")
    except Exception as fault:
        # (a file that is no kubeconfig is found out in many ways)
        VOICE.fail(f"{kubeconfig or 'the kubeconfig'} can't be read: {words_of(fault)}")
    urllib3.disable_warnings()
    if settings.host.startswith("https:") and not settings.verify_ssl:
        VOICE.say("warning", f"the certificate of {settings.host} isn't verified")
    # (a connection for each request under way, and for the watches)
    settings.connection_pool_maxsize = REQUESTS + 8
    found = kubernetes.client.ApiClient(settings)
    found.user_agent = f"cronsim-control/{os.uname().nodename}.{os.getpid()}"
    make_wary(urllib3, found.rest_client.pool_manager)
    return found, urllib3
