"""References (IOR, CORBA 3.3 Part 2, 7.6.2 and 9.7.2), their text (7.6.9) and corbaloc addresses
(7.6.10.1).

A reference is a list of its type id and its profiles, each a list of its tag and its octets, as the
type REFERENCE of descriptions.py reads it.
"""
import re
from dataclasses import dataclass

from cdr import Fault, Reader, Writer, encapsulated
from descriptions import REFERENCE


class BadText(Exception):
    """A text that is refused: what is printed behind `fault`."""


def octets_of_hex(digits):
    """The octets of hexadecimal digits in either case."""
    if not re.fullmatch(rb'(?:[0-9a-fA-F]{2})*', digits):
        raise BadText('2 BadHex')
    return bytes.fromhex(digits.decode())


# The text of a reference: its prefix, and the digits of an encapsulation.

def reference_of(text):
    if text[:4].upper() != b'IOR:':
        raise BadText('1 BadPrefix')
    octets = octets_of_hex(text[4:])
    try:
        return REFERENCE.read(encapsulated(octets))
    except Fault as fault:
        raise BadText(str(fault)) from fault


def text_of(reference):
    writer = Writer()
    writer.octet(0)
    REFERENCE.write(writer, reference)
    return 'IOR:' + writer.octets.hex()


# The IIOP profile: the octets of a profile of tag 0 are an encapsulation of it. Octets behind it
# are of later versions.

@dataclass
class IiopProfile:
    major: int
    minor: int
    host: bytes
    port: int
    key: bytes
    components: list


def component(reader):
    return reader.ulong(), reader.octet_list()


def iiop_profile(tag, octets):
    """What the profile says, or None where it is no IIOP profile."""
    try:
        return iiop_octets(octets) if tag == 0 else None
    except Fault:
        return None


def iiop_octets(octets):
    reader = encapsulated(octets)
    major = reader.octet()
    if major != 1:
        raise Fault('BadLabel', 1)
    minor = reader.octet()
    host, port, key = reader.string(), reader.ushort(), reader.octet_list()
    return IiopProfile(major, minor, host, port, key,
                       reader.items(component) if minor > 0 else [])


def written_profile(profile):
    """The octets of an IIOP profile without components, big-endian."""
    writer = Writer()
    for octet in (0, profile.major, profile.minor):
        writer.octet(octet)
    writer.string(profile.host)
    writer.ushort(profile.port)
    writer.octet_list(profile.key)
    if profile.minor > 0:
        writer.ulong(0)
    return bytes(writer.octets)


# Corbaloc texts. The addresses end before the first slash; commas part them.

PREFIX = b'corbaloc:'
KEY_OCTETS = (b'ABCDEFGHIJKLMNOPQRSTUVWXYZabcdefghijklmnopqrstuvwxyz0123456789'
              b";/:?@&=+$,-_.!~*'()")


@dataclass
class Corbaloc:
    addresses: list  # of (major, minor, host, port)
    key: bytes

    def text(self):
        """The corbaloc in full."""
        addresses = ','.join(f'iiop:{major}.{minor}@{host.decode()}:{port}'
                             for major, minor, host, port in self.addresses)
        key = ''.join(chr(octet) if octet in KEY_OCTETS else f'%{octet:02X}' for octet in self.key)
        return PREFIX.decode() + addresses + ('/' + key if key else '')

    def reference(self):
        """A reference without a type id, with a profile for each address."""
        profiles = [IiopProfile(major, minor, host, port, self.key, [])
                    for major, minor, host, port in self.addresses]
        return [b'', [[0, written_profile(profile)] for profile in profiles]]


def corbaloc_of(text):
    if not text.startswith(PREFIX):
        raise BadText('1 BadPrefix at 0')
    listed, slash, key = text[len(PREFIX):].partition(b'/')
    addresses, at = [], len(PREFIX)
    for address in listed.split(b','):
        addresses.append(address_of(address, at))
        at += len(address) + 1
    return Corbaloc(addresses, key_of(key, at) if slash else b'')


def address_of(text, at):
    """An address, which begins at the offset `at`."""
    protocol = re.match(rb'(?:iiop)?:', text)
    if not protocol:
        raise BadText(f'2 BadProtocol at {at}')
    at, text = at + protocol.end(), text[protocol.end():]
    version, sign, rest = text.partition(b'@')
    major, minor = version_of(version, at) if sign else (1, 0)
    if not sign:
        rest, version = text, b''
    at += len(version) + len(sign)
    host, colon, port = rest.partition(b':')
    if not re.fullmatch(rb'[A-Za-z0-9._-]+', host):
        raise BadText(f'3 BadHost at {at}')
    at += len(host) + len(colon)
    return major, minor, host, port_of(port, at) if colon else 2809


def version_of(text, at):
    form = re.fullmatch(rb'([0-9]{1,3})\.([0-9]{1,3})', text)
    if not form or int(form[1]) != 1 or int(form[2]) > 255:
        raise BadText(f'5 BadVersion at {at}')
    return 1, int(form[2])


def port_of(text, at):
    if not re.fullmatch(rb'[0-9]{1,5}', text) or int(text) > 65535:
        raise BadText(f'4 BadPort at {at}')
    return int(text)


def key_of(text, at):
    """The octets of the key, whose text begins at the offset `at`."""
    key, position = bytearray(), 0
    while position < len(text):
        octet = text[position]
        if octet == ord('%'):
            digits = text[position + 1:position + 3]
            if not re.fullmatch(rb'[0-9a-fA-F]{2}', digits):
                raise BadText(f'6 BadEscape at {at + position}')
            key.append(int(digits, 16))
            position += 3
            continue
        if octet not in KEY_OCTETS:
            raise BadText(f'7 BadChar at {at + position}')
        key.append(octet)
        position += 1
    return bytes(key)
