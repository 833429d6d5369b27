"""A machine's clock that isn't the API server's."""
import re

from stage import MINUTES, Stage

AHEAD = r"this machine's clock is (\d+) s (ahead of|behind) the API server's: "
AHEAD += "a Job starts once it is due by both"
WANTED = [f"c-{MINUTES + it}" for it in (1, 2, 3)]


def differences(stage):
    """What is said of the clocks: by how many seconds, and how."""
    found = [re.search(AHEAD, it) for it in stage.said()]
    return [(int(it[1]), it[2]) for it in found if it]


def undue(stage):
    """The Jobs that were created before their time came by the server's clock."""
    posts = stage.of("POST", "/jobs$")
    times = [(it.at, int(it.body["metadata"]["name"].split("-")[1]) * 60) for it in posts]
    return [due for at, due in times if due > at + 1]


def is_near(found, seconds, word):
    return [abs(it - seconds) <= 2 and said == word for it, said in found]


def ahead():
    """With a clock an hour ahead Jobs start once they are due by the server's."""
    stage = Stage()
    stage.cron(startingDeadlineSeconds=100)
    stage.replicas[0].skew = 3600
    stage.run(200)
    yield "none early", undue(stage), []
    yield "the Jobs that started", [name for name, _ in stage.starts()], WANTED
    yield "on time", max((late for _, late in stage.starts()), default=99) < 4, True
    yield "it is told once", is_near(differences(stage), 3600, "ahead of"), [True]


def behind():
    """With one an hour behind none starts before it is due there, too."""
    stage = Stage()
    stage.cron()
    stage.replicas[0].skew = -3600
    stage.run(200)
    yield "nothing starts", stage.starts(), []
    yield "it is told once", is_near(differences(stage), 3600, "behind"), [True]


def nearly_right():
    """A few seconds are no difference, and nothing is said of a transport that tells no date."""
    for skew, tells in ((3, True), (-3, True), (0, False), (3600, False)):
        stage = Stage()
        stage.scenario.tells_date = tells
        stage.cron("c", "1 * * * *" if skew == 3600 else "* * * * *")
        stage.replicas[0].skew = skew
        stage.run(100)
        yield f"nothing is said, {skew} {tells}", differences(stage), []
        if skew != 3600:
            yield f"it starts, {skew}", [name for name, _ in stage.starts()][:1], WANTED[:1]


def a_jump():
    """A clock that jumps is believed once the server has answered."""
    for jump in (3600, 86400):
        stage = Stage()
        stage.cron()
        stage.begin()
        stage.go(30)
        jumped = stage.clock.now
        stage.replicas[0].skew = jump
        stage.go(170)
        stage.end()
        asked = [round(it.at - jumped) for it in stage.of("GET", "^/version") if it.at > jumped]
        yield f"by {jump} s: /version is asked", asked[:1] in ([0], [1]), True
        yield f"by {jump} s: none early", undue(stage), []
        yield f"by {jump} s: what started", [name for name, _ in stage.starts()], WANTED


def a_long_pause():
    """After a pause of the whole machine the server's answer has jumped as well."""
    stage = Stage()
    stage.cron()
    stage.begin()
    stage.go(30)
    stage.clock.now += 600
    stage.go(10)
    stage.end()
    yield "nothing is said of it", differences(stage), []
    wanted = [f"c-{MINUTES + 10}"]
    yield "what was due last starts", [name for name, _ in stage.starts()], wanted


def a_pause_without_answers():
    """A jump isn't believed while the server doesn't answer."""
    stage = Stage()
    stage.cron("c", "30 * * * *")
    stage.begin()
    stage.go(30)
    stage.replicas[0].skew = 3600
    stage.meddle("GET", "^/version", {"error": "connection refused"}, 3)
    stage.go(20)
    stage.end()
    yield "nothing is created", [it.what for it in stage.of("POST", "/jobs$")], []


CASES = (ahead, behind, nearly_right, a_jump, a_long_pause, a_pause_without_answers)
