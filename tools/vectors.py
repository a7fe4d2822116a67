#!/usr/bin/env python3
"""vectors.py CAPTURES RUST_ERRORS RUST_SLOTS: makes crates/vectors/stdin, crates/vectors/stdout and crates/order/stdout.

CAPTURES is a folder of recorded answers: NAME.resp is one answer, byte for byte, and README.md has a table whose
rows give each one's depth. RUST_ERRORS and RUST_SLOTS are the programs that tools/rust_errors/build.sh and
tools/rust_slots/build.sh write: they say what the Rust makes of an error, and of an answer to CLUSTER SLOTS. What is
expected is worked out here from the RESP specification and docs/SPECIFICATION.md by a reader that shares nothing with
the one under test; kinds and retry methods come from the Rust, depths from the README. Tables of slots are worked out
in slot_answers.py, and have to be the Rust's wherever the two are to agree.
"""
import collections, pathlib, re, subprocess, sys

sys.dont_write_bytecode = True  # nothing is left beside the sources
import slot_answers

ANSWERING = b"-"  # the host that a report takes for the one that answered
KINDS = ["answer", "dropped", "denied", "other"]
FAULTS = {"dropped": "reset", "denied": "denied", "other": "timeout"}  # as RUST_ERRORS calls them


class Unreadable(Exception):
    pass


def line(b, p):
    m = re.compile(rb"[^\r\n]*").match(b, p)
    if b[m.end() : m.end() + 2] != b"\r\n":
        raise Unreadable
    return m.group(), m.end() + 2


def value(b, p, depth):
    """The value at p, in the form that slot_answers.py has, and its end."""
    kind, (head, q) = b[p : p + 1], line(b, p + 1)
    if kind in (b"+", b"-"):
        return (kind, head), q
    if kind == b":":
        if not re.fullmatch(rb"[+-]?[0-9]+", head) or not -(2**63) <= int(head) < 2**63:
            raise Unreadable
        return int(head), q
    if kind not in (b"$", b"*"):
        raise Unreadable
    if head == b"-1":
        return None, q
    if not re.fullmatch(rb"[0-9]+", head):
        raise Unreadable
    n = int(head)
    if kind == b"$":
        if n > len(b) or b[q + n : q + n + 2] != b"\r\n":
            raise Unreadable
        return b[q : q + n], q + n + 2
    if depth == 0 or n > len(b):
        raise Unreadable
    items = []
    for _ in range(n):
        item, q = value(b, q, depth - 1)
        items.append(item)
    return items, q


def read(b, depth):
    v, end = value(b, 0, depth)
    if end != len(b):
        raise Unreadable
    return v


def is_whole(b):
    try:
        read(b, 64)
        return True
    except Unreadable:
        return False


def errors(v):
    """The texts of the errors in a value, in the order of the bytes."""
    if type(v) is list:
        return [text for item in v for text in errors(item)]
    return [v[1]] if type(v) is tuple and v[0] == b"-" else []


def nesting(v):
    return 1 + max(map(nesting, v), default=0) if type(v) is list else 0


def redirect(text):
    code, blank, detail = text.partition(b" ")
    words = re.split(rb"[ \t\n\x0c\r]+", detail.strip(b" \t\n\x0c\r")) if blank else []
    if code not in (b"MOVED", b"ASK") or len(words) < 2:
        return "-"
    if not re.fullmatch(rb"\+?[0-9]+", words[0]) or int(words[0]) > 65535:
        return "-"
    m = re.fullmatch(rb"([!-9;-Z\\^-~]{1,64}):([1-9][0-9]{0,4})", words[1])
    if not m or int(m.group(2)) > 65535:
        return "-"
    return words[1].decode()


def shown(b):
    return "".join(chr(c) if 0x21 <= c <= 0x7E and c != 0x25 else f"%{c:02X}" for c in b) or '""'


def lines_told(rust, lines):
    out = subprocess.run([rust], input="\n".join(lines) + "\n", capture_output=True, text=True, check=True).stdout.splitlines()
    assert len(out) == len(lines)
    return out


def asked(rust, word):
    return lines_told(rust, [word])[0].split(" ", 2)


def ending(found, rust):
    """How an answer with these errors ends."""
    if not found:
        return "good - - -"
    kind, method, node = asked(rust, found[0].hex())
    to = redirect(found[0])
    assert to == "-" or f'("{to}", ' in node, (found[0], node)  # what we follow, the Rust finds too
    name = re.sub(r"Server\((.*)\)", r"\1", kind)
    return f"{name} {shown(found[0].partition(b' ')[0])} {method} {to.replace('%', '%25')}"


def spelled(ranges):
    return [f"{start} {end} " + " ".join(f"{shown(host)}:{port}" for host, port in addresses) for start, end, addresses in ranges]


def explained(b, rust):
    """What explain says of an answer: its ending."""
    try:
        v = read(b, 8)
    except Unreadable:
        kind, method, _ = asked(rust, "parse")
        return f"{kind} - {method} -"
    return ending(errors(v), rust)


def compare_tables(answers, rust):
    """Asserts which tables the Rust reads, and counts those that are ours, limits aside."""
    counts = collections.Counter()
    for b, told in zip(answers, lines_told(rust, [f"{ANSWERING.hex()} {b.hex()}" for b in answers])):
        try:
            v = read(b, 8)
        except Unreadable:
            assert told == "unreadable", (b, told)
            counts["unreadable"] += 1
            continue
        ours, _ = slot_answers.table(v, ANSWERING)
        ranges, _ = slot_answers.table(v, ANSWERING, slot_answers.rust_address)
        assert told == (" | ".join(spelled(ranges)) or "-"), (b, told)
        if ranges == ours:
            counts["equal tables with ranges" if ranges else "equal empty tables"] += 1
        else:
            counts["with a node for the Rust alone"] += 1
    return counts


def entries(tape):
    """The kind and the bytes of each entry; what is cut off is dropped."""
    while tape:
        size = int.from_bytes(tape[1:3], "little")
        if len(tape) < 3 + size:
            yield "dropped", b""
            return
        yield KINDS[min(tape[0], 3)], tape[3 : 3 + size]
        tape = tape[3 + size :]


def entry(index, kind, b, rust):
    if kind == "answer":
        return f"entry {index} answer {explained(b, rust)}"
    _, method, _ = asked(rust, FAULTS[kind])
    return f"entry {index} {kind} {kind.capitalize()} - {method} -"


CORNERS = [
    # lines, integers and lengths
    b"", b"\r\n", b"+", b"+OK", b"+OK\r", b"+OK\n", b"+OK\r\n ", b"+OK\r\n+OK\r\n", b"+\r\n", b"+a\rb\r\n", b"+a\nb\r\n",
    b"+\x00\xff\r\n", b"-\r\n", b"-a\rb\r\n", b":\r\n", b":+\r\n", b":-\r\n", b":+5\r\n", b":-0\r\n", b":007\r\n",
    b":" + b"0" * 60 + b"9\r\n", b":9223372036854775807\r\n", b":9223372036854775808\r\n", b":-9223372036854775808\r\n",
    b":-9223372036854775809\r\n", b":99999999999999999999\r\n", b":1 \r\n", b": 1\r\n", b":++1\r\n", b":1a\r\n",
    b"$0\r\n\r\n", b"$00\r\n\r\n", b"$005\r\nhello\r\n", b"$5\r\nhello\r", b"$5\r\nhello\n\n", b"$5\r\nhell\r\n", b"$4\r\nhello\r\n",
    b"$-1\r\n", b"$-2\r\n", b"$+1\r\na\r\n", b"$-01\r\n", b"$1 \r\na\r\n", b"$\r\n\r\n", b"$18446744073709551616\r\n\r\n",
    b"$18446744073709551615\r\na\r\n", b"$9223372036854775807\r\na\r\n", b"$2\r\n\r\n\r\n", b"$3\r\na\r\n\r\n",
    b"*0\r\n", b"*00\r\n", b"*-1\r\n", b"*-2\r\n", b"*+1\r\n:1\r\n", b"*-01\r\n", b"*1\r\n", b"*2\r\n:1\r\n", b"*1\r\n:1\r\n:2\r\n", b"*01\r\n:1\r\n",
    b"*18446744073709551616\r\n", b"*9999999999\r\n:1\r\n", b"*1\r\n?\r\n", b"%1\r\n+a\r\n+b\r\n", b"_\r\n", b"#t\r\n", b",1\r\n", b"(1\r\n", b"~0\r\n", b">0\r\n",
    # depth
    b"*1\r\n" * 8 + b":1\r\n", b"*1\r\n" * 9 + b":1\r\n", b"*1\r\n" * 8 + b"*-1\r\n", b"*1\r\n" * 8 + b"*0\r\n", b"*1\r\n" * 7 + b"*0\r\n", b"*1\r\n" * 8 + b"$-1\r\n",
    # errors: the first in the order of the bytes, at any depth, unless the answer is damaged
    b"*2\r\n:1\r\n-TRYAGAIN x\r\n", b"*2\r\n-ERR a\r\n-MOVED 7 b:2\r\n", b"*2\r\n*1\r\n-ASK 7 b:2\r\n-ERR x\r\n", b"*2\r\n-MOVED 7 b:2\r\n:x\r\n", b"*2\r\n-MOVED 7 b:2\r\n",
    b"*1\r\n" * 8 + b"-LOADING x\r\n", b"*3\r\n$3\r\n-ER\r\n:1\r\n-NOSCRIPT\r\n", b"$10\r\n-MOVED 7 x\r\n",
    b"- MOVED 7 b:2\r\n", b"-MOVED  7 b:2\r\n", b"-MOVED\t7 b:2\r\n", b"-moved 7 b:2\r\n", b"-MOVEDX 7 b:2\r\n", b"-ERR\r\n", b"-ERR \r\n", b"-%x \r\n", b"-\xff\x00 y\r\n",
]
CORNERS += [b"-" + c + b" x\r\n" for c in b"ERR EXECABORT LOADING NOSCRIPT MOVED ASK TRYAGAIN CLUSTERDOWN CROSSSLOT MASTERDOWN READONLY NOTBUSY NOSUB NOPERM NOAUTH OOM BUSY".split()]
CORNERS += [
    b"-" + kind + b" " + detail + b"\r\n"
    for kind in (b"MOVED", b"ASK")
    for detail in (
        b"3999 127.0.0.1:6381", b"65536 h:1", b"65535 h:1", b"7", b"7 ", b"7 h", b"7 h:", b"7 :2", b"7 h:0", b"7 h:01", b"7 h:+1", b"7 h:1 x", b"7 h:70000", b"7 h:65535", b"7 h:65536",
        b"+7 h:1", b"007 h:1", b"+ h:1", b"-0 h:1", b"++7 h:1", b"+007 h:1", b" 7 h:1", b"7  h:1", b"7\th:1", b"7\x0ch:1", b"\t7\t\th:1\t", b"7\x0bh:1", b"7 [h]:1", b"7 a:b:1", b"7 ::1:5", b"x h:1", b"h:1",
        b"7 " + b"h" * 64 + b":1", b"7 " + b"h" * 65 + b":1", b"7 h%41:1", b"7 \xc3\xa9:1", b"7 !~:1", b"7 h\x7f:1", b"7 ?:7201", b"18446744073709551616 h:1", b"7 h:99999999999999999999",
    )
]


SLOTS = [slot_answers.written(v) for v in slot_answers.CORNERS]


def cases(captures):
    """The name and the bytes of each answer, and its depth where the README tells it."""
    table = re.findall(r"^\| (\S+) \|.*\| (\d+) \| (\d+) \| `", (captures / "README.md").read_text(), re.M)
    recorded = [(name, (captures / f"{name}.resp").read_bytes(), int(depth)) for name, _, depth in table]
    assert {n for n, _, _ in recorded} == {f.stem for f in captures.glob("*.resp")}
    assert all(len(b) == int(size) for (_, b, _), (_, size, _) in zip(recorded, table))
    return recorded + [(f"corner-{i}", b, None) for i, b in enumerate(CORNERS, 1)]


def main():
    if len(sys.argv) != 4:
        sys.exit(__doc__)
    captures, rust_errors, rust_slots = pathlib.Path(sys.argv[1]), sys.argv[2], sys.argv[3]
    crates = pathlib.Path(__file__).resolve().parent.parent / "crates"
    given, expected, answers = [], [], []
    for name, b, told in cases(captures):
        assert len(b) <= 65535, name  # so much an entry of a tape can hold
        try:
            depth = str(nesting(read(b, 64)))
        except Unreadable:
            depth = "-"
        assert told is None or depth == str(told), name
        fronts = range(0, len(b), 1 if len(b) <= 4096 else 97)
        whole = sum(is_whole(b[:n]) for n in fronts)
        assert told is None or whole == 0, name  # no front of a value is a value
        given.append(f"{name} {b.hex()}")
        expected.append(f"{name} {depth} {len(fronts)} {whole} {entry(1, 'answer', b, rust_errors)}")
        answers.append(b)
    tape = list(entries((crates / "order" / "data" / "answers.tape").read_bytes()))
    explanation = [entry(i, kind, b, rust_errors) for i, (kind, b) in enumerate(tape, 1)]
    counts = compare_tables(answers + SLOTS + [b for kind, b in tape if kind == "answer"], rust_slots)
    (crates / "vectors" / "stdin").write_text("\n".join(given) + "\n")
    (crates / "vectors" / "stdout").write_text("\n".join(expected) + "\n")
    (crates / "order" / "stdout").write_text("\n".join(explanation) + "\n")
    print(f"{len(answers)} answers, {len(tape)} entries of the tape; beside the Rust:", dict(counts))


main()
