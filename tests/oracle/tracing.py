"""What `trace` tells of a connection of which both directions were recorded, or the client's alone
(docs/giopctl.md, "trace"; docs/FORMATS.md, "Lines of trace"). It plays neither side: no message is
refused, and each has its place in a call or a line by itself."""
import json
from dataclasses import dataclass

from cdr import Fault
from client import Call, Client, listed, system_exception
from messages import (Message, body_values, locate_reply_head, locate_request_head, messages,
                      reply_head, request_head)
from text import escaped, hexed, quoted, unescaped

ASKS, ANSWERS = ('Request', 'LocateRequest'), ('Reply', 'LocateReply')


@dataclass
class Flow:
    """What came of one call: its messages, each as far as its pieces came, and whether the client
    gave it up."""
    asked: Message = None  # nothing, where an answer came that no one asked for
    answer: Message = None
    cancelled: bool = False


class Trace:
    """The lines of a connection, and the calls that are open."""

    def __init__(self, interface, alone):
        self.interface, self.alone = interface, alone
        self.open, self.lines = {}, []

    def read(self, client, server):
        """Both directions, a message of the client and then those of the server that may be read
        before the next one."""
        waiting = list(server)
        for message in client:
            self.hear_client(message)
            while waiting and not self.waits(waiting[0]):
                self.hear_server(waiting.pop(0))
        # Only here an answer may begin a call that no one asked for: before, it waits.
        for message in waiting:
            self.hear_server(message)
        for call in sorted(self.open):
            self.tell(call, self.open[call], 'NoAnswer')

    def waits(self, message):
        """Whether a message of the server answers a call whose request hasn't been read, or that
        has its answer already."""
        call = id_of(message)
        if message.kind not in ANSWERS or call is None:
            return False
        flow = self.open.get(call)
        return not flow or flow.asked.more or flow.answer is not None

    def hear_client(self, message):
        call = id_of(message)
        flow = self.open.get(call)
        if call is None:
            self.tell(None, Flow(asked=message), 'NoAnswer')
        elif message.kind in ASKS:
            if flow:
                self.tell(call, flow, 'NoAnswer')
            self.go_on(call, Flow(asked=message))
        elif message.kind == 'CancelRequest':
            self.cancel(call, flow)
        elif message.kind == 'Fragment' and flow and continues(flow.asked, message):
            join(flow.asked, message)
            self.go_on(call, flow)
        else:
            self.tell(call, Flow(asked=message), '')

    def cancel(self, call, flow):
        """It has no line of its own. A call whose request isn't whole is over by it."""
        if flow:
            flow.cancelled = True
            if flow.asked.more:
                del self.open[call]
                self.tell(call, flow, '')

    def hear_server(self, message):
        call = id_of(message)
        flow = self.open.get(call)
        if call is None:
            self.tell(None, Flow(answer=message), '')
        elif message.kind in ANSWERS:
            if flow and flow.answer:
                self.tell(call, flow, 'NoAnswer')
                flow = None
            flow = flow or Flow()
            flow.answer = message
            self.go_on(call, flow)
        elif message.kind == 'Fragment' and flow and continues(flow.answer, message):
            join(flow.answer, message)
            self.go_on(call, flow)
        else:
            self.tell(call, Flow(answer=message), '')

    def go_on(self, call, flow):
        """The call is told if it is over, else it is open."""
        self.open.pop(call, None)
        if flow.answer:
            over = not flow.answer.more
        else:
            over = not flow.asked.more and (self.alone or is_oneway(flow.asked))
        if over:
            self.tell(call, flow, 'OnewaySent')
        else:
            self.open[call] = flow

    # Lines

    def tell(self, call, flow, unanswered):
        """What is told of a call: its id, the words of what was asked, and of what came of it."""
        outs, asked = self.asked(flow.asked)
        if flow.answer:
            if not flow.asked and flow.answer.kind in ANSWERS:
                asked = ['Unasked']
            self.lines.append((call, asked, self.answered(outs, flow.answer)))
            return
        came = []
        if flow.asked.kind in ASKS:
            came = ['Cancelled'] if flow.cancelled else [] if self.alone else [unanswered]
        self.lines.append((call, asked, came))

    def asked(self, message):
        """The types of the outs of a Request that can be decoded, else nothing; and the words of the
        message."""
        if not message:
            return None, []
        octets = hexed(message.octets)
        if message.kind not in ASKS:
            return None, ['Client', message.kind, octets]
        if message.more:
            return None, ['Unfinished', message.kind, octets]
        try:
            return self.decoded(message)
        except Fault as fault:
            return None, ['Undecoded', 'header', str(fault), octets]

    def decoded(self, message):
        reader = message.reader()
        if message.kind == 'LocateRequest':
            return None, ['LocateAsked', target_text(locate_request_head(message, reader).target)]
        head = request_head(message, reader)
        operation = self.interface.operations.get(head.operation)
        if not operation:
            return None, ['Undecoded', 'operation', hexed(message.octets)]
        kinds = [kind for _, kind in operation.ins]
        try:
            values = body_values(reader, head, kinds)
        except Fault as fault:
            return None, ['Undecoded', 'body', str(fault), hexed(message.octets)]
        outs = [kind for _, kind in operation.outs] if head.flags == 3 else []
        return outs, ['Asked', target_text(head.target), escaped(head.operation),
                      listed(kinds, values)]

    def answered(self, outs, message):
        """What an answer says, by the outs of the Request that it answers, if that was decoded."""
        octets = hexed(message.octets)
        if message.kind not in ANSWERS:
            return ['Server', message.kind, octets]
        if message.more:
            return ['Unfinished', message.kind, octets]
        reader = message.reader()
        try:
            if message.kind == 'LocateReply':
                return ['LocateDone', str(locate_reply_head(message, reader).status)]
            return ['Done', *self.replied(outs, reply_head(message, reader), reader)]
        except Fault as fault:
            exception = exception_of(message)
            shown = [] if exception is None else ['exception', escaped(exception)]
            return ['Undecoded', 'reply', str(fault), *shown, octets]

    def replied(self, outs, head, reader):
        """A body by its status. One that answers no decoded Request is a system exception."""
        if head.status == 2:
            reader.at = head.body
            name, minor, completion = system_exception(reader).split()
            reader.must_end()
            return ['2', name, minor, f'0x{int(minor):08x}', completion]
        if outs is None:
            raise Fault('BadLabel', reader.at)
        told = Client(self.interface, 2).body(Call(outs, False), head, reader)
        return told.removeprefix(' ').split(' ', 2 if head.status == 1 else 1)


def id_of(message):
    """The request id, or None where there is none that can be read."""
    try:
        return None if message.kind in ('CloseConnection', 'MessageError') else message.id()
    except Fault:
        return None


def continues(message, fragment):
    return bool(message) and message.more and message.little == fragment.little


def join(message, fragment):
    message.octets += fragment.octets[4:]
    message.more = fragment.more


def is_oneway(message):
    """Whether no reply is expected; of what can't be read one is."""
    if message.kind != 'Request':
        return False
    try:
        return request_head(message, message.reader()).flags == 0
    except Fault:
        return False


def target_text(target):
    return f'{target[0]} {hexed(target[1]) if target[0] == "key" else target[1]}'


def exception_of(message):
    """The id of the user exception that a Reply brings, where it can be read."""
    reader = message.reader()
    try:
        if message.kind == 'Reply':
            head = reply_head(message, reader)
            reader.at = head.body
            return reader.string() if head.status == 1 else None
    except Fault:
        pass
    return None


def text_line(call, asked, came):
    return ' '.join(['-' if call is None else str(call), *asked, *came])


# Lines of JSON

def json_line(call, asked, came):
    return compact({'id': call, 'asked': asked_members(asked), 'outcome': came_members(came)})


def asked_members(words):
    what, *told = words or ['']
    if what in ('Client', 'Unfinished'):
        return {'what': 'other' if what == 'Client' else 'unfinished', **message_members(told)}
    if what == 'Undecoded':
        fault = {'fault': fault_members(told[1])} if told[0] != 'operation' else {}
        return {'what': 'undecoded', 'part': told[0], **fault, 'octets': digits(told[-1])}
    if what == 'LocateAsked':
        return {'what': 'locate', **target_members(told[0])}
    if what == 'Asked':
        return {'what': 'request', **target_members(told[0]), 'operation': unescaped(told[1]),
                'ins': Raw(told[2])}
    return {'what': 'nothing'} if what == 'Unasked' else None


SIMPLE = {'OnewaySent': 'oneway', 'Cancelled': 'cancelled', 'NoAnswer': 'no_answer'}


def came_members(words):
    what, *told = words or ['']
    if what in SIMPLE:
        return {'what': SIMPLE[what]}
    if what in ('Server', 'Unfinished'):
        return {'what': 'other' if what == 'Server' else 'unfinished', **message_members(told)}
    if what == 'LocateDone':
        return {'what': 'located', 'status': int(told[0])}
    if what == 'Undecoded':
        exception = {'exception': unescaped(told[3])} if told[2] == 'exception' else {}
        return {'what': 'undecoded', 'fault': fault_members(told[1]), **exception,
                'octets': digits(told[-1])}
    return done_members(*told) if what == 'Done' else None


def done_members(status, *told):
    if status == '0':
        return {'what': 'result', 'outs': Raw(told[0])}
    if status == '1':
        return {'what': 'user_exception', 'exception': unescaped(told[0]), 'members': Raw(told[1])}
    if status == '2':
        return {'what': 'system_exception', 'exception': unescaped(told[0]), 'minor': int(told[1]),
                'minor_hex': told[2], 'completion': int(told[3])}
    if status == '5':
        return {'what': 'needs_addressing', 'disposition': int(told[0])}
    return {'what': 'forward' if status == '3' else 'forward_perm', 'reference': told[0]}


class Raw(str):
    """A text that is JSON already."""


def compact(value):
    """JSON without blanks, in which octets are a text."""
    if isinstance(value, Raw):
        return str(value)
    if isinstance(value, dict):
        return '{' + ','.join(f'"{name}":{compact(member)}' for name, member in value.items()) + '}'
    return quoted(value) if isinstance(value, bytes) else json.dumps(value)


def message_members(told):
    return {'message': told[0], 'octets': digits(told[1])}


def digits(text):
    return '' if text == '-' else text


def fault_members(text):
    number, name, _, place = text.split()
    return {'number': int(number), 'name': name, 'at': int(place)}


def target_members(text):
    kind, told = text.split(' ')
    if kind != 'key':
        return {'profile_tag' if kind == 'profile' else 'reference_index': int(told)}
    key = bytes.fromhex(digits(told))
    printable = all(0x20 <= octet <= 0x7E for octet in key)
    return {'key': key.hex(), **({'key_text': key} if printable else {})}


def end_line(name, stream, found, as_json):
    """How a direction ends."""
    _, at, fault = found
    left = len(stream) - at
    if not as_json:
        return f'{name} fault {fault}' if fault else f'{name} rest {left}'
    return compact({'end': name, **({'fault': fault_members(str(fault))} if fault
                                    else {'rest': left})})


def traced(interface, client, server, as_json=False):
    """All lines, and the exit status; `server` is None where the client is heard alone."""
    trace = Trace(interface, server is None)
    streams = {'client': client} if server is None else {'client': client, 'server': server}
    found = {name: messages(stream) for name, stream in streams.items()}
    trace.read(*([each for _, each in found[name][0]] if name in found else []
                 for name in ('client', 'server')))
    lines = [(json_line if as_json else text_line)(*line) for line in trace.lines]
    lines += [end_line(name, stream, found[name], as_json) for name, stream in streams.items()]
    whole = all(not fault and at == len(streams[name]) for name, (_, at, fault) in found.items())
    return lines, 0 if whole else 1
