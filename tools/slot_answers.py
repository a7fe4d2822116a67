"""Answers to CLUSTER SLOTS: the table that docs/SPECIFICATION.md makes of a value, and answers for each of its rules.

Values are as vectors.py reads them: None for Nil, int, bytes for a bulk string, list, and a pair of the first byte and
the line for what is left.
"""
import re

RANGES, REPLICAS, ADDRESSES = 256, 8, 64


def address(node, answering):
    """The node's host and port, or None where it is not usable."""
    if type(node) is not list or len(node) < 2:
        return None
    host, port = node[:2]
    if host in (None, b"", b"0.0.0.0", b"::"):
        host = answering
    elif type(host) is not bytes or host == b"?" or not re.fullmatch(rb"[!-~]{1,64}", host):
        return None
    return (host, port) if type(port) is int and 0 <= port <= 65535 else None


def rust_address(node, answering):
    """The same as the Rust has it: it wraps ports, and takes almost any host, as UTF-8 with losses."""
    if type(node) is not list or len(node) < 2:
        return None
    host, port = node[:2]
    if type(port) is not int or host == b"?" or type(host) not in (bytes, type(None)):
        return None
    if host in (None, b"", b"0.0.0.0", b"::"):
        return answering, port % 65536
    return host.decode("utf-8", "replace").encode(), port % 65536


def ranges_read(value):
    """Start, end and nodes of each range up to where the reading stops."""
    for item in value if type(value) is list else []:
        if type(item) is not list:
            return
        if len(item) >= 3 and type(item[0]) is type(item[1]) is int:
            yield item[0] % 65536, item[1] % 65536, item[2:]


def table(value, answering, address=address):
    """The ranges ascending by end, each with its addresses, the primary first; and whether they keep the limits."""
    usable = []
    for start, end, nodes in ranges_read(value):
        found = [a for a in (address(n, answering) for n in nodes) if a]
        if found:
            usable.append((start, end, found))
    by_end = {r[1]: r for r in usable}
    ranges = [by_end[end] for end in sorted(by_end)]
    distinct = {a for _, _, addresses in ranges for a in addresses}
    most = max((len(addresses) - 1 for _, _, addresses in usable), default=0)
    return ranges, len(usable) <= RANGES and most <= REPLICAS and len(distinct) <= ADDRESSES


def written(value):
    if value is None:
        return b"$-1\r\n"
    if type(value) is int:
        return b":%d\r\n" % value
    if type(value) is bytes:
        return b"$%d\r\n%s\r\n" % (len(value), value)
    if type(value) is tuple:
        return b"%s%s\r\n" % value
    return b"*%d\r\n" % len(value) + b"".join(map(written, value))


A, B, C, UNKNOWN = [b"a", 1], [b"b", 2], [b"c", 3], [b"?", 4]
NIL_ARRAY, ERROR = (b"*", b"-1"), (b"-", b"TRYAGAIN x")
ID, FIELDS = b"562b83f9b167149d4d926eac7f76bdf105e01a6a", [b"hostname", b"node0.example.com"]
LEAST, MOST = -(2**63), 2**63 - 1


def nodes(count, first=0):
    return [[b"h%d" % i, 7000] for i in range(first, first + count)]


def singles(nodes):
    """A range of one slot for each node."""
    return [[i, i, node] for i, node in enumerate(nodes)]


def nested(value, levels):
    return nested([value], levels - 1) if levels else value


def largest(size):
    """All limits met, descending by end, with one more field that makes up the size."""
    addresses = [[b"127.0.0.%d" % (i % 10), 7000 + i] for i in range(ADDRESSES)] * 2
    ranges = [[64 * i, 64 * i + 63] + addresses[i % ADDRESSES :][: REPLICAS + 1] for i in reversed(range(RANGES))]
    short = size - len(written(ranges)) - len(b"$100\r\n\r\n")
    ranges[0][2] = ranges[0][2] + [b"x" * short]
    assert 100 <= short < 1000
    return ranges


CORNERS = [
    # which items are read, and where the reading stops
    [[0, 16383, A]], [[0, 5, A], [6, 9, B, C]], [[]], [[], [0], [0, 5], [6, 9, B]], [[0, 5, 7], [6, 9, B]], [[0, 5, None, b"a:1", (b"+", b"a"), [], ERROR], [6, 9, B]],
] + [
    items
    for stop in (None, NIL_ARRAY, 7, b"", b"x", (b"+", b"x"), ERROR, (b"-", b"MOVED 7 b:2"))
    for items in ([[0, 5, A], stop, [6, 9, B]], [stop, [0, 5, A]], [[0, 5, A], [6, 9, B], stop])
] + [
    # starts and ends that are no integers, and errors inside a range, which end the answer and not the reading
    items
    for odd in (None, NIL_ARRAY, b"0", (b"+", b"0"), [], [0], ERROR)
    for items in ([[odd, 5, A], [6, 9, B]], [[0, odd, A], [6, 9, B]])
] + [
    [[0, 5, ERROR, A], [6, 9, B]], [[0, 5, A, ERROR], [6, 9, B]], [[0, 5, [ERROR, 1]], [6, 9, B]], [[0, 5, [b"a", ERROR]], [6, 9, B]], [[0, 5, [b"a", 1, ERROR]], [6, 9, B]], [[0, ERROR], [6, 9, B]],
] + [
    # modulo 65,536
    [[n, 20000, A], [3, n, B]]
    for n in (-1, -2, 32768, -32768, 65535, 65536, 65541, -65536, -65531, 131071, LEAST, LEAST + 5, MOST, MOST - 65535, (b":", b"+5"), (b":", b"-0"), (b":", b"0065541"))
] + [
    # order, equal ends, overlaps, reversed ranges, ends above 16,383
    [[10, 20, B], [0, 5, A]], [[30, 40, C], [10, 20, B], [0, 5, A]], [[10, 20, B], [30, 40, C], [0, 5, A]], [[0, 5, A], [3, 5, B]], [[3, 5, B], [0, 5, A]], [[0, 5, A], [6, 9, B], [1, 5, C]], [[0, 5, A, B], [0, 5, C]],
    [[0, 5, A], [0, 65541, B]], [[0, 5, A], [1, 5, UNKNOWN]], [[0, 5, A], [1, 5]], [[0, 9, A], [5, 12, B]], [[0, 12, A], [5, 9, B]], [[9, 6, A]], [[9, 6, A], [6, 9, B]], [[16383, 0, A]],
    [[0, 16384, A]], [[16384, 16384, A]], [[0, 65535, A]], [[65535, 65535, A]], [[65535, 0, A]], [[16384, 65535, A], [0, 16383, B]],
    # nodes
    [[0, 5, [b"a"], B]], [[0, 5, [], B]], [[0, 5, [], [b"a"], None, 7, b"a:1", (b"+", b"a"), NIL_ARRAY]], [[0, 5, A, [], B, [b"a"], C]], [[0, 5, [1, b"a"], B]], [[0, 5, A, A, A]], [[0, 5, A, B], [6, 9, B, A]],
    [[0, 5, UNKNOWN, B]], [[0, 5, UNKNOWN, B, C]], [[0, 5, A, UNKNOWN, C]], [[0, 5, UNKNOWN]], [[0, 5, UNKNOWN, UNKNOWN], [6, 9, B]], [[0, 5, UNKNOWN], [6, 9, UNKNOWN]],
    [[0, 5, A + [ID]]], [[0, 5, A + [ID, []], B + [ID, FIELDS]]], [[0, 5, A + [ID, [FIELDS, [FIELDS, None]], 7, None]]], [[0, 5, A + [nested(7, 5)], B]], [[0, 5, A + [nested(7, 6)], B]], [[0, 5, [nested(b"a", 5), 1], B]], [[0, 5, [b"a", nested(1, 5)], B]],
] + [
    # hosts and ports
    [[0, 5, [host, 7], B]]
    for host in (
        None, NIL_ARRAY, b"", b"0.0.0.0", b"::", b"?", b"-", (b"+", b"a"), (b"+", b""), (b"+", b"?"), (b"-", b"a"), 0, 7, [], [b"a"], b"h" * 64, b"h" * 65, b"h" * 128, b"a b", b" ", b" a", b"a ", b"\x00", b"a\x1f", b"!", b"~", b"\x7f", b"a\x7f",
        b"a%41", b"%", b"%25", b"::1", b"[::1]", b"[a]", b"a:b", b":", b"??", b"?a", b"a?", b"0.0.0.1", b"0.0.0.00", b"0.0.0.0:", b":::", b":0", b"a\r\nb", b"\xc3\xa9", b"\xff", b"|", b'""',
    )
] + [
    [[0, 5, [b"a", port], B]]
    for port in (-1, 0, 1, 65535, 65536, 65537, 131071, -65535, -65536, LEAST, MOST, b"1", b"", None, NIL_ARRAY, (b"+", b"1"), (b"-", b"1"), (b":", b"+7"), (b":", b"007"), (b":", b"-0"), [], [1])
] + [
    [[0, 5, [None, -1], [b"", 65536], [b"?", 1], [b"::", 7]]], [[0, 5, [b"a b", 65536], [b"a", b"1"], B]], [[0, 5, [b"h" * 65, b"1"], B]],
    # 256 usable ranges, replaced ones too
    singles([A] * 256), singles([A] * 257), [[0, 5, A]] * 256, [[0, 5, A]] * 257, singles([A] * 256) + [[0, 0, B]], singles([A] * 255) + [[0, 0, B]],
    singles([A] * 256) + [[9, 9, UNKNOWN], [9, 9], [None, 9, A]], singles([A] * 256) + [7, [300, 300, A]],
    # 8 replicas in every usable range, replaced ones too
    [[0, 5, A] + nodes(8)], [[0, 5, A] + nodes(9)], [[0, 5, A] + [B] * 8], [[0, 5, A] + [B] * 9], [[0, 5, A] + [A] * 9], [[0, 5, A] + nodes(9), [1, 5, B]], [[0, 5, A], [1, 5, B] + nodes(9)], [[0, 5, A] + nodes(9), [6, 9, B]],
    [[0, 5, A] + nodes(4) + [UNKNOWN] + nodes(4, 4)], [[0, 5, UNKNOWN, A] + nodes(8)], [[0, 5, UNKNOWN, A] + nodes(9)], [[0, 5] + [UNKNOWN] * 20 + nodes(9)], [[0, 5, A] + nodes(8) + [[b"a", 65536], [b"a b", 1], []]],
    [[None, 5, A] + nodes(9), [6, 9, B]], [[6, 9, B], None, [0, 5, A] + nodes(9)],
    # 64 distinct addresses in the table, in which replaced ones do not stand
    singles(nodes(64)), singles(nodes(65)), singles(nodes(64) + [[b"h0", 7000]]), singles(nodes(64) + [[b"h0", 7001]]), singles(nodes(64) + [[b"H0", 7000]]), singles(nodes(64) + [UNKNOWN]), [[0, 5, n] for n in nodes(65)],
    singles(nodes(64)) + [[9, 9, B]], singles(nodes(64)) + [[8, 8, B]] + [[9, 9, C]], singles(nodes(65)) + [[0, 0, [b"h64", 7000]]], [[0, 5, *nodes(9)]] + singles(nodes(64, 9)), [[70, 80, *nodes(9)]] + singles(nodes(55, 9)), [[70, 80, *nodes(9)]] + singles(nodes(56, 9)),
    singles(nodes(63) + [[None, 1], [b"", 1], [b"::", 1], [b"0.0.0.0", 1], [b"-", 1]]), singles(nodes(64) + [[None, 1], [b"", 1], [b"::", 1], [b"-", 1]]), singles([[b"a", port % 64] for port in range(66)]), singles([[b"a", port] for port in range(65)]),
    largest(65535),
]
