"""What is judged of a run, over what was written down of it. All times are seconds of one clock, that of the machine.

A host's own lines say from when on it holds a name, and that it doesn't any more. The line that ends a hold comes late where the host
was paused, or waits for a reply to its release. So a hold is sure from its line `granted` up to the last question that the host itself
answered for the name before that line was read: between both it can't have been lost and got again without a line.
"""

from collections import defaultdict, namedtuple

from packets import GROUP

GRANTED = "granted"
# What a host prints when it doesn't hold a name any more, or releases it.
ENDINGS = ("lost", "lapsed", "given back", "give-back denied", "give-back unconfirmed", "not held")
GIVEN_BACK = ("given back", "give-back denied", "give-back unconfirmed")
# How long after an answer the line `lapsed` comes at the latest that shows that the hold was over when it was sent. The host's next
# turn begins with a look at its names, right after the answer.
TURN = 0.05


# A line of a host: when it was read, whose it is, from which of its starts, what happened, to which name.
Line = namedtuple("Line", "at host life event name")

# A host's positive answer for a name: when it was asked, when the answer came, and in which of its starts it was asked.
Answer = namedtuple("Answer", "asked came host life name")

# What the server told of a name: the addresses, none where it has no such name.
Told = namedtuple("Told", "asked came name addresses")

# A hold, as its host tells it: from a line `granted` on, sure up to one moment, and over by another, as a line says or not.
Span = namedtuple("Span", "host life name kind begun sure over has_ending")


def whose(it):
    return it.host, it.life, it.name


def grouped(all_of_them, key):
    groups = defaultdict(list)
    for it in all_of_them:
        groups[key(it)].append(it)
    return groups


def spans_of_lines(lines, ends, kind_of, last):
    """The holds that lines tell. `ends` has when each life of each host was over; `last` is when the run was."""
    spans, open_spans = [], {}

    def close(key, at):
        host, life, name = key
        begun, end = open_spans.pop(key), ends.get((host, life), last)
        spans.append(Span(host, life, name, kind_of(host, name), begun, begun, min(at, end), at < end))

    for line in lines:
        key = whose(line)
        if line.event == "slept":
            for other in [other for other in open_spans if other[:2] == key[:2]]:
                close(other, line.at)
        elif line.event == GRANTED:
            if key in open_spans:
                close(key, line.at)
            open_spans[key] = line.at
        elif line.event in ENDINGS and key in open_spans:
            close(key, line.at)
    for key in list(open_spans):
        close(key, last)
    return spans


def losses(lines):
    """The lines by which a host tells that it doesn't hold a name any more that it held and didn't give back. A host that ends says
    `not held` also of a name that it never had."""
    held, lost = set(), []
    for line in lines:
        key = whose(line)
        if line.event == GRANTED:
            held.add(key)
        elif line.event == "slept":
            own = {other for other in held if other[:2] == key[:2]}
            held -= own
            lost.extend(line._replace(name=name) for _, _, name in sorted(own))
        elif line.event in ENDINGS and key in held:
            held.discard(key)
            if line.event not in GIVEN_BACK:
                lost.append(line)
    return lost


def fewer_leases(starts, spans):
    """The starts of the server that had fewer leases than holds that were sure before and after them: each is when it was begun, when
    its first line was read, and how many leases that line tells."""
    sure = [(begun, read, leases, [s for s in spans if s.begun <= begun and read <= s.sure]) for begun, read, leases in starts]
    return [(read, leases, len(holds)) for _, read, leases, holds in sure if leases < len(holds)]


def with_answers(spans, answers):
    """The same holds, each sure up to the last question that its host answered."""
    own, surer = grouped(answers, whose), []
    for span in spans:
        inside = [answer.asked for answer in own[whose(span)] if span.begun <= answer.asked and answer.came < span.over]
        surer.append(span._replace(sure=max(inside, default=span.begun)))
    return surer


def spans_of_answers(answers, gap, kind):
    """The holds of a program that prints no lines: answers that follow each other within `gap` seconds."""
    spans = defaultdict(list)
    for answer in answers:
        own = spans[whose(answer)]
        if own and answer.asked - own[-1].sure <= gap:
            own[-1] = own[-1]._replace(sure=max(own[-1].sure, answer.asked), over=answer.came)
        else:
            own.append(Span(*whose(answer), kind, answer.came, answer.came, answer.came, False))
    return [span for own in spans.values() for span in own]


def pairs_at_once(spans, end_of):
    """Pairs of holds of one name by two hosts, not both of a group, that stand beside one another up to the ends that end_of tells."""
    pairs = []
    for named in grouped(sorted(spans, key=lambda span: span.begun), lambda span: span.name).values():
        for place, first in enumerate(named):
            for second in named[place + 1 :]:
                if second.begun >= end_of(first):
                    break
                is_shared = first.host == second.host or first.kind == second.kind == GROUP
                if not is_shared and min(end_of(first), end_of(second)) > second.begun:
                    pairs.append((first, second))
    return pairs


def twice(spans):
    """Pairs of hosts that held one name at once, for sure."""
    return pairs_at_once(spans, lambda span: span.sure)


def only_lines(spans):
    """Pairs whose lines say so, but no answers: the line that ends the first hold came late."""
    sure = twice(spans)
    return [pair for pair in pairs_at_once(spans, lambda span: span.over) if pair not in sure]


def is_after_a_pause(answer, pauses):
    return any(begun < answer.came and answer.asked < ended for begun, ended in pauses[answer.host])


def answers_against_lines(answers, spans, pauses):
    """Answers for a name that the host's own lines don't say it holds; and those that came after a pause, from a hold that was over."""
    against, stale, held = [], [], grouped(spans, whose)
    for answer in answers:
        around = [span for span in held[whose(answer)] if span.begun <= answer.came and answer.asked <= span.over]
        after_a_pause = is_after_a_pause(answer, pauses)
        if after_a_pause and all(span.has_ending and span.over <= answer.came + TURN for span in around):
            stale.append(answer)
        elif not around:
            against.append(answer)
    return against, stale


def server_against_hosts(told, spans, address_of):
    """What the server told of a name, while a host held it for sure, that isn't this host's address, and no other of a unique name."""
    against, named = [], grouped(spans, lambda span: span.name)
    for reply in told:
        for span in named[reply.name]:
            is_during = span.begun <= reply.asked and reply.came <= span.sure
            is_alone = span.kind == GROUP or len(reply.addresses) <= 1
            if is_during and not (is_alone and address_of(span.host) in reply.addresses):
                against.append((reply, span))
    return against


def not_told(told, leases, name, address):
    """What the server told of a name otherwise than that it is this address's, while one of these leases lasted: each is when the server
    said that it begins, and for how many seconds."""
    replies = [reply for reply in told if reply.name == name and address not in reply.addresses]
    return [reply for reply in replies if any(at <= reply.asked and reply.came <= at + seconds for at, seconds in leases)]
