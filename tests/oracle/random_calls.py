"""Calls, answers and replies at random: what `giopctl call` and `serve` are given, and what a
server sends back."""
import random_types
from answering import Answer, MESSAGE_ERROR, NEEDS_ADDRESSING, located, replied
from client import Form, pieces
from descriptions import Number, REFERENCE, String
from forms import json_form
from loose import damaged
from random_streams import message

EXCEPTION = b'IDL:omg.org/CORBA/NO_IMPLEMENT:1.0'
CORBALOCS = ('corbaloc::h', 'corbaloc::1.2@h:1,iiop:1.1@h2/k%00%25')


def some_calls(rng, interface):
    return [{'id': call, 'operation': name, 'ins': some_values(rng, operation.get('ins', []))}
            for call, (name, operation) in enumerate(interface['operations'].items())]


def some_answers(rng, interface):
    """A result, an exception or a forward for each operation that isn't oneway, or for some of them,
    and a default."""
    exceptions = list(interface.get('exceptions', {}).items())
    answers = {}
    for name, operation in interface['operations'].items():
        if operation.get('oneway'):
            continue
        if rng.random() < 0.3:
            answers[name] = general_answer(rng)
        elif exceptions and rng.random() < 0.5:
            told, members = rng.choice(exceptions)
            answers[name] = {'user': told, 'members': some_values(rng, members)}
        else:
            answers[name] = {'ok': some_values(rng, operation.get('outs', []))}
    if rng.random() < 0.3:
        answers = {name: answer for name, answer in answers.items() if rng.random() < 0.5}
        answers['*'] = general_answer(rng)
    return answers


def general_answer(rng):
    """What any operation may be answered: a system exception, or a forward; not one for good, which
    is of 1.2 alone."""
    if rng.random() < 0.4:
        return {'forward': json_form(REFERENCE, random_types.reference(rng))}
    if rng.random() < 0.2:
        return {'forward': rng.choice(CORBALOCS)}
    answer = {'system': EXCEPTION.decode()}
    if rng.random() < 0.5:
        answer['minor'] = rng.choice((0, 7, 2 ** 32 - 1))
    if rng.random() < 0.5:
        answer['completion'] = rng.randrange(3)
    return answer


def some_values(rng, members):
    kinds = [random_types.kind_of(form) for _, form in members]
    return [json_form(kind, random_types.value(rng, kind)) for kind in kinds]


# What a server sends

def replies(rng, interface, calls, minor, errs):
    """A stream of replies to calls, which are (id, operation); in pieces, interleaved, in any
    order."""
    lanes = [reply(rng, interface, call, operation, minor, errs) for call, operation in calls]
    if errs and rng.random() < 0.5:
        befalls = rng.choice((wrong_kind, unknown, a_fragment, no_reply, ending))
        lanes.append([befalls(rng, calls, minor)])
    made = []
    while any(lanes):
        made.append(rng.choice([lane for lane in lanes if lane]).pop(0))
    return b''.join(made)


def reply(rng, interface, call, operation, minor, errs):
    """The messages of one Reply: none of one that never comes."""
    if errs and rng.random() < 0.1:
        return []
    form = Form(minor, rng.random() < 0.5, rng.choice((24, 32, 40, 4096)))
    joined = replied(call, some_answer(rng, interface, operation), form)
    if errs and rng.random() < 0.3:
        front = 8 if minor == 2 else 12
        joined = joined[:front] + damaged(rng, joined[front:])
    return pieces('Reply', call, joined, form)


def some_answer(rng, interface, operation):
    """A result, a user exception, a system exception, a forward or a wish for another target."""
    status = rng.choice((0, 0, 0, 1, 1, 2, 3, 4, 5))
    if status == 0 or status == 1 and not interface.exceptions:
        kinds = [kind for _, kind in operation.outs]
        return Answer(0, kinds, [random_types.value(rng, kind) for kind in kinds])
    if status == 1:
        name, members = rng.choice(list(interface.exceptions.items()))
        if rng.random() < 0.1:
            name += b'?'
        kinds = [kind for _, kind in members]
        values = [random_types.value(rng, kind) for kind in kinds]
        return Answer(1, [String(), *kinds], [name, *values])
    if status == 2:
        return Answer(2, [String(), Number(4), Number(4)],
                      [EXCEPTION, rng.choice((0, 2 ** 32 - 1)), rng.randrange(4)])
    if status < 5:
        return Answer(status, [REFERENCE], [random_types.reference(rng)])
    return Answer(5, NEEDS_ADDRESSING.kinds, [rng.choice((0, 2, -1))])


# Messages that befall a client as none may

def some_call(rng, calls):
    return rng.choice(calls)[0] if calls else 7


def wrong_kind(rng, calls, minor):
    """A LocateReply, or a Reply of another version."""
    call = some_call(rng, calls)
    if rng.random() < 0.5:
        return located(call, 1, Form(minor))
    form = Form((minor + 1) % 3)
    return message('Reply', form.minor, False, replied(call, Answer(0, [], []), form))


def unknown(rng, calls, minor):
    """A Reply to a call that was never made, or a second one."""
    call = rng.choice((some_call(rng, calls), 99))
    return message('Reply', minor, False, replied(call, Answer(0, [], []), Form(minor)))


def a_fragment(rng, calls, _minor):
    little = rng.random() < 0.5
    front = some_call(rng, calls).to_bytes(4, 'little' if little else 'big')
    return message('Fragment', 2, little, front + bytes(8), rng.random() < 0.5)


def no_reply(rng, calls, minor):
    """What only a client sends, or no message at all."""
    call = some_call(rng, calls).to_bytes(4, 'big')
    return rng.choice((message('CancelRequest', minor, False, call),
                       message('Request', 2, False, call + bytes(24)), b'GIOX' + bytes(8),
                       message('Reply', 1, False, b'\xff' * 12)))


def ending(rng, _calls, minor):
    return rng.choice((MESSAGE_ERROR, message('CloseConnection', minor, False, b'')))
