"""Rows worked by hand from the standard's rules: octets, and what is printed for them. They judge
the oracle itself, before it judges the program."""
import commands
from random_edges import ACTS
from json_text import compact

PING = ('47494F50 01020000 00000024 00000001 03000000 00000000 00000001 6B000000 00000005 '
        '70696E67 00000000 00000000')
PING_TEXT = '  flags 3 key 6b operation ping contexts 0 body 0\nrest 0\n'
PIECES = ('47494F50 01020200 0000000C 00000001 03000000 00000000 '
          '47494F50 01020207 0000000C 00000001 00000001 6B000000 '
          '47494F50 01020207 0000000C 00000001 00000005 70696E67 '
          '47494F50 01020007 0000000C 00000001 00000000 00000000')
LITTLE_PIECES = ('47494F50 01020300 0C000000 02000000 03000000 00000000 '
                 '47494F50 01020307 0C000000 02000000 01000000 6B000000 '
                 '47494F50 01020307 0C000000 02000000 05000000 70696E67 '
                 '47494F50 01020107 0C000000 02000000 00000000 00000000')
FIRST = PIECES[:53]
ADD = '47494F50 01020000 0000002C 00000004 03000000 00000000 00000001 6B000000 00000004 61646400 ' \
      '00000000 00000000 00000002 00000005'

DUMPS = (
    ('', 'rest 0\n', 0),
    (PING, '0 Request BE size 36 id 1\n' + PING_TEXT, 0),
    (PING[:-2], 'rest 47\n', 1),
    (PING + '47494F50 01020005 00000000',
     '0 Request BE size 36 id 1\n  flags 3 key 6b operation ping contexts 0 body 0\n'
     '48 CloseConnection BE size 0\nrest 0\n', 0),
    ('47494F50 01020102 04000000 05000000', '0 CancelRequest LE size 4 id 5\nrest 0\n', 0),
    ('47494F50 01020001 00000010 00000001 00000000 00000000 00000007',
     '0 Reply BE size 16 id 1\n  status 0 contexts 0 body 4\nrest 0\n', 0),
    # One context of one octet: the head ends at 33, and the body begins at 40.
    ('47494F50 01020001 00000020 00000001 00000000 00000001 00000009 00000001 AAFFFFFF FFFFFFFF '
     '00000007', '0 Reply BE size 32 id 1\n  status 0 contexts 1 body 4\nrest 0\n', 0),
    ('47494F50 01020003 0000000D 00000006 00000000 00000001 6B',
     '0 LocateRequest BE size 13 id 6\n  key 6b\nrest 0\n', 0),
    ('47494F50 01020004 00000008 00000006 00000001',
     '0 LocateReply BE size 8 id 6\n  status 1 body 0\nrest 0\n', 0),
    # 1.0: no contexts; id 5 at 16; a response is expected; key, operation, and no principal, at 44.
    ('47494F50 01000000 00000024 00000000 00000005 01000000 00000001 6B000000 00000005 70696E67 '
     '00000000 00000000',
     '0 Request 1.0 BE size 36 id 5\n' + PING_TEXT, 0),
    ('47494F50 01000200 00000004 00000005', '0 fault 3 ReservedFlags at 6\n', 1),
    ('47494F50 01010200 00000024', '0 fault 8 NotFragmentable at 6\n', 1),
)
CHECKS = (
    (PING, '1 Asked ping []\nrest 0\n', 0),
    (PIECES + LITTLE_PIECES, '1 Asked ping []\n2 Asked ping []\nrest 0\n', 0),
    (FIRST + '47494F50 01020200 00000020', '1 Gathering\nfault 1 Wire 7 FragmentSize at 8\n', 1),
    (FIRST + '47494F50 01020107 0C000000 01000000 00000000 00000000',
     '1 Gathering\nfault 2 Call 1 3 OrderDiffers\n', 1),
    (FIRST + '47494F50 01020007 0000000C 00000009 00000000 00000000',
     '1 Gathering\nfault 2 Call 9 2 Stray\n', 1),
    (FIRST + '47494F50 01020002 00000004 00000001' + PIECES[54:], '1 Cancelled\nrest 0\n', 0),
    (PING + PING, '1 Asked ping []\nfault 2 Call 1 1 IdInUse\n', 1),
    (ADD, '4 Asked add [2,5]\nrest 0\n', 0),
    ('47494F50 01020002 00000004 00000005', 'rest 0\n', 0),
    ('47494F50 01020005 00000000', 'fault 7 Closed\n', 0),
)
POINT = b'{"struct":[["x","long"],["y","long"]]}'
CONVERTS = (
    ('ior', b'IOR:00000000000000010000000000000000', b'',
     'type -\nIOR:00000000000000010000000000000000\n', 0),
    ('ior', b'ior:00000000000000010000000000000000', b'',
     'type -\nIOR:00000000000000010000000000000000\n', 0),
    ('ior', b'IOR:0', b'', 'fault 2 BadHex\n', 1),
    ('ior', b'IOX:00', b'', 'fault 1 BadPrefix\n', 1),
    ('corbaloc', b'corbaloc::h/k', b'', 'corbaloc:iiop:1.0@h:2809/k\n'
     'IOR:0000000000000001000000000000000100000000000000110001000000000002'
     '68000af9000000016b\n', 0),
    ('corbaloc', b'corbaloc::h:65536', b'', 'fault 4 BadPort at 12\n', 1),
    ('corbaloc', b'corbaloc::h/%2', b'', 'fault 6 BadEscape at 12\n', 1),
    ('corbaloc', b'corbaloc:rir:/x', b'', 'fault 2 BadProtocol at 9\n', 1),
    ('corbaloc', b'corbaloc::h:1@1.0', b'', 'fault 5 BadVersion at 10\n', 1),
    ('encode', b'{"a":1,"b":2}', b'{"struct":[["a","octet"],["b","longlong"]]}',
     '01000000000000000000000000000002\n', 0),
    ('decode', b'0000000100', b'"string"', '""\n', 0),
    ('decode', b'00000000', b'"string"', '""\n', 0),
    ('decode', b'000000024142', b'"string"', 'fault 3 BadString at 0\n', 1),
    ('decode', b'000000020000', b'"string"', 'fault 3 BadString at 0\n', 1),
    ('decode', b'0000000541', b'"string"', 'fault 4 BadCount at 0\n', 1),
    ('decode', b'00000002', b'{"union":"long","cases":[[[1],"a","octet"]]}',
     '{"disc":2,"value":null}\n', 0),
    ('decode', b'0000000109', b'{"union":"long","cases":[[[1],"a","octet"]]}',
     '{"disc":1,"value":9}\n', 0),
    ('decode', b'00000001', b'{"enum":["RED","GREEN"]}', '"GREEN"\n', 0),
    ('decode', b'00000002', b'{"enum":["RED","GREEN"]}', 'fault 5 BadLabel at 0\n', 1),
)


def rows():
    """Each row: its name, what the oracle says, and what it has to say."""
    for octets, text, status in DUMPS:
        yield f'dump of {octets}', commands.dump(bytes.fromhex(octets)), (text, status)
    interface = compact(ACTS).encode()
    for octets, text, status in CHECKS:
        yield f'check of {octets}', commands.check(interface, bytes.fromhex(octets)), (text, status)
    for kind, file, description, text, status in CONVERTS:
        yield f'convert {kind} of {file}', commands.convert(kind, file, description), (text, status)


def count():
    return len(DUMPS) + len(CHECKS) + len(CONVERTS)


def differences():
    """The rows that the oracle gets wrong."""
    return [f'--- worked: {name}\nthe oracle says {said}\nand has to say {told}'
            for name, said, told in rows() if said != told]
