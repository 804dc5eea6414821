"""Both directions of a connection at random: what a client sends, and replies to it in any order."""
import json

import random_names
from answering import located
from cdr import Fault
from client import Form
from forms import interface_of
from loose import damaged
from messages import messages, request_head
from random_calls import reply
from random_streams import Peer


def session(rng, errs, harms=False):
    """An interface, and the octets of both directions, perhaps damaged. Each Request has an id that
    can be read, since else it isn't said whether a reply is expected."""
    while True:
        made = any_session(rng, errs)
        made = with_damage(rng, made) if harms else made
        if all(has_id(message) for _, message in messages(made[1])[0]):
            return made


def has_id(message):
    try:
        return message.kind in ('CloseConnection', 'MessageError') or message.id() is not None
    except Fault:
        return False


def any_session(rng, errs):
    form = random_names.interface(rng)
    peer, interface = Peer(rng, form, errs), interface_of(json.dumps(form).encode())
    asked = peer.session()
    if errs and rng.random() < 0.3:
        asked.insert(rng.randint(0, len(asked)), peer.stray())
    answered = answers(rng, interface, b''.join(asked), errs)
    if rng.random() < (0.6 if errs else 0.2):
        answered.insert(rng.randint(0, len(answered)), peer.stray())
    return form, ended(rng, asked), ended(rng, answered)


def ended(rng, made):
    """The octets of messages, now and then cut short."""
    octets = b''.join(made)
    return octets[:rng.randrange(len(octets) + 1)] if rng.random() < 0.1 else octets


def answers(rng, interface, stream, errs):
    """The messages that answer what a client sent: those of an id in its order, and of all in any;
    with errors some calls are answered twice, the pieces of both among each other."""
    lanes = {}
    for call, operation, minor in calls_of(interface, stream):
        for twice in (False, True) if errs and rng.random() < 0.2 else (False,):
            made = answer(rng, interface, call, operation, minor, errs)
            lanes.setdefault((call, twice), []).extend(made)
    made = []
    while any(lanes.values()):
        made.append(rng.choice([lane for lane in lanes.values() if lane]).pop(0))
    return made


def answer(rng, interface, call, operation, minor, errs):
    if operation is None or errs and rng.random() < 0.05:
        return [located(call, rng.choice((0, 1, 1, 5)), Form(minor, rng.random() < 0.5))]
    return reply(rng, interface, call, operation, minor, errs)


def calls_of(interface, stream):
    """The id, the operation and the minor version of each call; a LocateRequest has no operation."""
    begun = {}
    for _, message in messages(stream)[0]:
        if message.kind in ('Request', 'LocateRequest'):
            begun[message.id()] = message
        elif message.kind == 'Fragment' and message.id() in begun:
            begun[message.id()].octets += message.octets[4:]
            begun[message.id()].more = message.more
        else:
            continue
        if not message.more:
            whole = begun.pop(message.id())
            yield message.id(), operation_of(interface, whole), whole.minor


def operation_of(interface, message):
    if message.kind == 'LocateRequest':
        return None
    try:
        name = request_head(message, message.reader()).operation
    except Fault:
        name = None
    return interface.operations.get(name) or next(iter(interface.operations.values()))


def with_damage(rng, both):
    """One of the two directions damaged, or both."""
    form, asked, answered = both
    which = rng.choice((1, 2, 3))
    return (form, damaged(rng, asked) if which & 1 else asked,
            damaged(rng, answered) if which & 2 else answered)
