"""How octets are printed."""


def escaped(octets):
    """0x21 to 0x7E but `%` stand for themselves, each other octet is `%` and two digits."""
    return ''.join(chr(octet) if 0x21 <= octet <= 0x7E and octet != ord('%') else f'%{octet:02X}'
                   for octet in octets) or '-'


def unescaped(text):
    """The octets of an escaped text."""
    parts = [] if text == '-' else text.split('%')
    return b''.join(part.encode() if at == 0 else bytes([int(part[:2], 16)]) + part[2:].encode()
                    for at, part in enumerate(parts))


def quoted(octets):
    """Octets as a text of JSON: 0x20 to 0x7E stand for themselves, but a quote and a backslash,
    behind which a backslash stands; each other octet is \\u00 and two digits."""
    return '"' + ''.join('\\' + chr(octet) if octet in b'"\\' else chr(octet) if 0x20 <= octet <= 0x7E
                         else f'\\u00{octet:02x}' for octet in octets) + '"'


def hexed(octets):
    """Hexadecimal digits in lower case."""
    return bytes(octets).hex() or '-'
