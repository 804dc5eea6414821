"""Texts at random: references, corbalocs, and JSON; lawful ones and spoilt ones."""
import json
import re

from loose import LooseWriter, damaged
from descriptions import REFERENCE
from random_types import octets, reference

HOSTS = (b'h', b'printer.example', b'a-b_c.9', b'10.0.0.1', b'', b'h/', b'[::1]', b'h h', b'\xe9')


def either_case(rng, text):
    """The text with each letter in either case."""
    return bytes(rng.choice((octet, ord(chr(octet).upper()))) for octet in text)


# References

def ior_text(rng):
    """The text of a reference, in either byte order, whatever stands behind it."""
    writer = LooseWriter(rng, rng.random() < 0.5)
    writer.octet(int(writer.little))
    REFERENCE.write(writer, [rng.choice((b'', b'IDL:A:1.0')), some_profiles(rng)])
    if rng.random() < 0.2:
        writer.octets += rng.randbytes(3)
    if rng.random() < 0.3:
        writer.octets = damaged(rng, writer.octets)
    return either_case(rng, b'ior:') + either_case(rng, writer.octets.hex().encode())


def some_profiles(rng):
    return [iiop(rng) if rng.random() < 0.8 else profile
            for profile in reference(rng)[1] + reference(rng)[1]][:3]


def iiop(rng):
    """An IIOP profile in either byte order, damaged now and then."""
    writer = LooseWriter(rng, rng.random() < 0.5)
    minor = rng.choice((0, 0, 1, 2, 3, 255))
    writer.octet(int(writer.little))
    writer.octet(1 if rng.random() < 0.95 else rng.choice((0, 2)))
    writer.octet(minor)
    writer.string(rng.choice(HOSTS))
    writer.ushort(rng.choice((0, 1, 2809, 65535)))
    writer.octet_list(octets(rng, 0, 0))
    if minor:
        components = [(rng.choice((0, 1, 3)), octets(rng, 0, 0))
                      for _ in range(rng.choice((0, 1, 3)))]
        writer.items(components, write_component)
    if rng.random() < 0.2:
        writer.octets += rng.randbytes(2)
    if rng.random() < 0.3:
        writer.octets = damaged(rng, writer.octets)
    return [0, bytes(writer.octets)]


def write_component(writer, pair):
    writer.ulong(pair[0])
    writer.octet_list(pair[1])


# Corbalocs

def corbaloc_text(rng):
    """A corbaloc of one to three addresses, most of which are lawful."""
    addresses = b','.join(address(rng) for _ in range(rng.choice((1, 1, 2, 3))))
    return b'corbaloc:' + addresses + (b'/' + key(rng) if rng.random() < 0.7 else b'')


def address(rng):
    protocol = rare(rng, (b':', b'iiop:'), (b'rir:', b'IIOP:', b'', b'iiop', b'h'))
    version = rng.choice((b'', b'', b'1.0@', b'1.1@', b'1.2@', b'001.255@', b'1.03@'))
    version = rare(rng, (version,), (b'@', b'1@', b'1.@', b'.1@', b'2.0@', b'0.1@', b'1.256@',
                                     b'1.0000@', b'0001.0@', b'1.1.1@', b'1.-1@', b'1.0@@',
                                     b'h:1@'))
    host = rare(rng, HOSTS[:4], HOSTS[4:])
    port = rng.choice((b'', b'', b':0', b':1', b':2809', b':65535', b':00080'))
    port = rare(rng, (port,), (b':', b':65536', b':99999', b':000001', b':-1', b':1x', b':1:2'))
    return protocol + version + host + port


def rare(rng, usual, others):
    return rng.choice(others if rng.random() < 0.05 else usual)


def key(rng):
    """A key of octets that stand for themselves, escapes, and now and then another octet."""
    return b''.join(rare(rng, (bytes((rng.choice(b"kK09;/:?@&=+$,-_.!~*'()"),)),
                               b'%%%02x' % rng.randrange(256), b'%%%02X' % rng.randrange(256)),
                         (b'%', b'%2', b'%g0', b'%0g', b'#', b' ', b'"', b'\x80', b'[', b'\0',
                          b'\n'))
                    for _ in range(rng.choice((0, 1, 1, 2, 3, 5, 9))))


# JSON

SCRAPS = (None, True, False, 0, 1, -1, 127, 128, 255, 256, -129, 2 ** 15, 2 ** 16, 2 ** 31,
          2 ** 32 - 1, 2 ** 32, 2 ** 63 - 1, 2 ** 63, 2 ** 64 - 1, 2 ** 64, -2 ** 63, -2 ** 63 - 1,
          1.5, 1e3, 10 ** 30, '', 'a', 'ab', 'A', '\0', 'a\0', '\xff', '\u0100', '\U0001F600',
          '00', '0', '1', '-1', '-0', '01', '+1', ' 1', '1.0', '1e3', '-', '\u0661', '256',
          '9007199254740993', '18446744073709551615', '18446744073709551616',
          '-9223372036854775808', '-9223372036854775809', '0' * 30 + '1', '1' * 5000, 'FF', 'fg', [], {}, [[]], [None], 'octet', 'long', 'string',
          {'string': 0}, {'octets': 2 ** 32}, {'enum': []},
          {'struct': []}, {'array': 'octet', 'length': 0}, {'sequence': 'octet', 'bound': 0},
          {'union': 'octet', 'cases': [[[1], 'a', 'octet']]}, {'union': 'long', 'cases': []},
          {'union': {'enum': ['a', 'a']}, 'cases': [[['a'], 'b', 'octet']]},
          {'union': 'long', 'cases': [[[1], 'b', 'octet'], [[2], 'b', 'octet']]},
          {'union': 'long', 'cases': [[[1], 'b', 'octet']], 'default': ['b', 'octet']},
          {'union': 'long', 'cases': [[[1], 'b', 'octet'], [[2, 1], 'c', 'octet']]},
          {'union': {'enum': ['a']}, 'cases': [[['b'], 'b', 'octet']]}, {'enum': ['a', 'a']},
          {'struct': [['a', 'octet'], ['a', 'octet']]}, {'oneway': True, 'outs': [['a', 'octet']]},
          {'oneway': True, 'outs': []}, 'IOR:', 'IOR:00',
          'ior:0100000000000000010000000000000000', 'float')
KEYS = ('', 'a', 'b', 'operations', 'exceptions', 'ins', 'outs', 'oneway', 'string', 'octets',
        'enum', 'struct', 'union', 'cases', 'default', 'sequence', 'bound', 'array', 'length',
        'disc', 'value')


def places(form):
    """All lists and objects in a JSON value, each with each of its keys."""
    if isinstance(form, (list, dict)):
        for key in range(len(form)) if isinstance(form, list) else list(form):
            yield form, key
            yield from places(form[key])


def spoilt(rng, form):
    """The JSON value with one part replaced, left out, put in or doubled."""
    form = json.loads(json.dumps(form))
    found = list(places(form))
    if not found or rng.random() < 0.03:
        return rng.choice(SCRAPS)
    holder, key = rng.choice(found)
    change = rng.choice((replace, replace, nudge, leave_out, put_in, double, exchange))
    change(rng, holder, key, found)
    return form


def replace(rng, holder, key, _found):
    holder[key] = rng.choice(SCRAPS)


def nudge(rng, holder, key, _found):
    """One more or one less, or the same number as a text."""
    if isinstance(holder[key], int) and not isinstance(holder[key], bool):
        holder[key] = rng.choice((holder[key] + 1, holder[key] - 1, str(holder[key])))
    else:
        holder[key] = rng.choice(SCRAPS)


def leave_out(_rng, holder, key, _found):
    del holder[key]


def put_in(rng, holder, key, _found):
    if isinstance(holder, list):
        holder.insert(key, rng.choice(SCRAPS))
    else:
        holder[rng.choice(KEYS)] = rng.choice(SCRAPS)


def double(rng, holder, key, _found):
    if isinstance(holder, list):
        holder.append(holder[key])
    else:
        holder[rng.choice(KEYS)] = holder[key]


def exchange(rng, holder, key, found):
    """A part of the value itself in another's place."""
    other, there = rng.choice(found)
    holder[key] = json.loads(json.dumps(other[there]))


def json_text(rng, form):
    """A JSON text of the value: with spaces, escapes and doubled keys, or without."""
    spaces = rng.choice(((',', ':'), (', ', ': '), (' ,\n', '\t:\r\n')))
    text = json.dumps(form, ensure_ascii=rng.random() < 0.5, separators=spaces)
    if rng.random() < 0.1:
        text = text.replace('{"', '{"a":0,"', 1).replace('{"a":0,"a"', '{"a"')
    if rng.random() < 0.1 and '{"' in text:
        first = text.split('{"', 1)[1].split('"')[0]
        text = text.replace('{"', '{"' + first + '":[null],"', 1)
    return text.encode('utf-8', 'surrogatepass')


TOKEN = re.compile(rb'"(?:[^"\\]|\\.)*"|[a-z]+|-?[0-9]+|[\[\]{},:]', re.DOTALL)
TOKENS = (b'NaN', b'-Infinity', b'nul', b'True', b'01', b'1.', b'.5', b'+1', b'-', b'-0', b'0.0',
          b'1E5', b'1e400', b'-1e-400', b"'a'", b'"\t"', b'"\\t"', b'"\\x"', b'"\\u00ff"',
          b'"\\u0100"',
          b'"\\ud83d\\ude00"', b'"\\ude00"', b'"\\ud83d"', b'"\\ud83dx"', b'"\x7f"', b'"\x80"',
          b'"\xed\xa0\x80"', b'[,]', b'[1,]', b'{"a":1,}', b'{1:2}', b'{}', b'"a":1', b'')


def other_token(rng, text):
    """A JSON text with one of its tokens replaced."""
    found = list(TOKEN.finditer(text))
    at = rng.choice(found) if found else re.match(b'', text)
    return text[:at.start()] + rng.choice(TOKENS) + text[at.end():]


def deep_text(rng):
    """Arrays and objects that nest as deep as they may, one deeper, or one less."""
    text = b'1'
    for _ in range(rng.choice((126, 127, 128, 129))):
        text = b'[' + text + b']' if rng.random() < 0.5 else b'{"[":' + text + b'}'
    return text


def broken_text(rng, text):
    """A JSON text with something wrong, by its octets and not its value."""
    return rng.choice((cut_text, cut_text, other_token, other_token))(rng, text)


def cut_text(rng, text):
    """A JSON text with an octet too many, too few, or another one."""
    text = bytearray(text)
    at = rng.randrange(len(text)) if text else 0
    scrap = rng.choice((b'"', b',', b':', b'[', b']', b'{', b'}', b'\\', b'\\u', b'\\ud800', b'\0',
                        b'\x0b', b'0', b'-', b'.5', b'e1', b'NaN', b'null', b'\xff',
                        b'\xc3\xa9', b'\xc4\x80',
                        b'\xef\xbb\xbf', b'//', b' '))
    if rng.random() < 0.5:
        text[at:at] = scrap
    else:
        text[at:at + 1] = rng.choice((b'', scrap))
    return bytes(text)
