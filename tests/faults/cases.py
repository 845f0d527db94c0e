"""Short runs, written by hand, and what the judge has to make of them. Each run of `run` tries them.

They stand in cases.txt: what each shows and what has to be counted, and then what happens, as `4-20 a answers G`: from when to when, who,
what, and about which name, X where none is given.
"""

import os
from collections import defaultdict, namedtuple

import judge
from judge import Answer, Line, Told
from packets import GROUP, UNIQUE

UNTIL = 100  # when each of these runs is over

# How many there are of: pairs that held a name at once; pairs whose lines overlap alone; answers against lines; answers from a hold that
# was over, after a pause; replies of the server against a hold; names that a host lost; starts of the server with fewer leases than holds;
# and replies that lack the holder of Y, while its lease lasts.
COUNTS = "twice lines against stale server lost fewer lacking".split()

Case = namedtuple("Case", "what lines answers wanted pauses told ends starts leases")


def case_of(text):
    head, _, events = text.partition("\n")
    what, _, counts = head.partition(": ")
    wanted = dict.fromkeys(COUNTS, 0) | {name: int(count) for name, count in (it.split() for it in counts.split(", ") if it != "nothing")}
    case = Case(what, [], [], wanted, defaultdict(list), [], {}, [], [])
    for event in events.replace("\n", " ").split(","):
        moment, who, word, *more = event.split()
        begun, _, ended = moment.partition("-")
        begun, ended, name = float(begun), float(ended or begun), more[0] if more else "X"
        if word == "answers":
            case.answers.append(Answer(begun, ended, who, 1, name))
        elif word == "paused":
            case.pauses[who].append((begun, ended))
        elif word == "ends":
            case.ends[who, 1] = begun
        elif word == "tells":
            case.told.append(Told(begun, ended, name, tuple(more[1:])))
        elif word == "starts":
            case.starts.append((begun, ended, int(name)))
        elif word == "leases":
            case.leases.append((begun, int(name)))
        else:
            case.lines.append(Line(begun, who, 1, word.replace("-", " "), "" if word == "slept" else name))
    return case


with open(f"{os.path.dirname(__file__)}/cases.txt") as file:
    CASES = [case_of(text) for text in file.read().split("\n\n")]


def judged(case):
    kind_of = lambda host, name: GROUP if name == "G" or host == "g" else UNIQUE  # noqa: E731
    spans = judge.with_answers(judge.spans_of_lines(case.lines, case.ends, kind_of, UNTIL), case.answers)
    against, stale = judge.answers_against_lines(case.answers, spans, case.pauses)
    server = judge.server_against_hosts(case.told, spans, lambda host: host)
    lost, fewer = judge.losses(case.lines), judge.fewer_leases(case.starts, spans)
    lacking = judge.not_told(case.told, case.leases, "Y", "y")
    counted = judge.twice(spans), judge.only_lines(spans), against, stale, server, lost, fewer, lacking
    return dict(zip(COUNTS, map(len, counted), strict=True))


def wrong_cases():
    return [f"{case.what}: {judged(case)}, not {case.wanted}" for case in CASES if judged(case) != case.wanted]
