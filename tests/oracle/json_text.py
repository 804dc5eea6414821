"""JSON texts (RFC 8259): Python's reader, held to the letter.

Python reads a little more than JSON: `NaN`, halves of surrogate pairs, any depth, numbers of any
size. And a number with a fraction or an exponent is no whole number here, however round; it is read
as NotWhole.
"""
import json
import math
import re

DEEPEST = 127
STRING_OR_BRACKET = re.compile(r'"(?:[^"\\]|\\.)*"|[\[\]{}]', re.DOTALL)
SURROGATE = re.compile('[\ud800-\udfff]')


class BadJson(Exception):
    """The octets are no JSON text."""


class NotWhole:
    """A number with a fraction or an exponent, or one that no 64 bits hold."""


def json_of(octets):
    """The value of a JSON text: None, a bool, an int, NotWhole, a str, a list or a dict. Of a key
    that stands twice the last one stands."""
    try:
        text = octets.decode('utf-8')
        value = json.loads(text, parse_int=whole, parse_float=broken,
                           parse_constant=refuse, object_pairs_hook=members)
    except (ValueError, RecursionError) as error:
        raise BadJson from error
    if depth_of(text) > DEEPEST or has_surrogate(value):
        raise BadJson
    return value


def whole(digits):
    """The number, where it lies from -2^63 to 2^64 - 1. `-0` counts as one with a fraction."""
    if len(digits) > 24 or digits == '-0':
        return broken(digits)
    return int(digits) if -1 << 63 <= int(digits) < 1 << 64 else NotWhole


def broken(digits):
    """A number that is no whole one; one that no double holds is refused."""
    if math.isinf(float(digits)):
        raise ValueError(digits)
    return NotWhole


def refuse(constant):
    raise ValueError(constant)


def members(pairs):
    """The object; a key, or a value that another one replaces, has to be JSON all the same."""
    if any(has_surrogate(part) for pair in pairs for part in pair):
        raise ValueError('surrogate')
    return dict(pairs)


def has_surrogate(value):
    """Whether a text in the value, its objects apart, has half of a surrogate pair."""
    if isinstance(value, list):
        return any(has_surrogate(part) for part in value)
    return isinstance(value, str) and SURROGATE.search(value) is not None


def depth_of(text):
    """How deep the arrays and objects of a JSON text nest."""
    depth = deepest = 0
    for token in STRING_OR_BRACKET.findall(text):
        depth += {'[': 1, '{': 1, ']': -1, '}': -1}.get(token, 0)
        deepest = max(deepest, depth)
    return deepest


def compact(value):
    """The value as a text, without spaces, the keys of objects in ascending order."""
    return json.dumps(value, ensure_ascii=False, sort_keys=True, separators=(',', ':'))
