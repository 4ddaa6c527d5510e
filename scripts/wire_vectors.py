#!/usr/bin/env python3
"""The test vectors of the program `compare`, and an independent reading of the wire's rules.

The reader below is written from the rules of RESP2 and RESP3 as this project states them, and from
nothing else: the proved crates were not looked at, and no answer of theirs is copied. The expected
answers of the vectors come from this reader.

    wire_vectors.py [FOLDER]

writes crates/compare/stdin, a question to each line, and crates/compare/stdout, the expected answer
to each. FOLDER has the replies of a real Redis 7.0.15 (samples/captures where none is given).

    question                answer
    wire TAB HEX            ok TAB LENGTH               the length of the whole reply that begins the bytes
                            no TAB wire NUMBER PLACE    the first fault, and where it is
    any other line          bad TAB WHY

The numbers: 10 the bytes end before the reply does; 11 unknown first character; 12 a stray CR or LF
in a line; 13 a line over 1,024 bytes; 14 a content that its kind does not allow; 15 over a limit;
16 no CR LF after a body; 17 not UTF-8.
"""

import random
import re
import sys
from collections import Counter
from pathlib import Path

HOME = Path(__file__).resolve().parent.parent

# ---------------------------------------------------------------------------------------------
# The reader

CR, LF = 13, 10
LINE_LIMIT = 1024
BODY_LIMIT = 60_000
ITEM_LIMIT = 4_096
PAIR_LIMIT = 2_048
DEPTH_LIMIT = 32

BODIES = b"$!="
ITEMS = b"*~>"
PAIRS = b"%|"
KINDS = b"+-:$*_#,(!=%|~>"

PLAIN = re.compile(rb"(0|[1-9][0-9]*)\Z")
INTEGER = re.compile(rb"(0|-?[1-9][0-9]*)\Z")
DOUBLE = re.compile(rb"([+-]?[0-9]+(\.[0-9]+)?([eE][+-]?[0-9]+)?|inf|-inf|nan)\Z")
BIG = re.compile(rb"[+-]?[0-9]+\Z")
BOOLEAN = re.compile(rb"[tf]\Z")
EMPTY = re.compile(rb"\Z")

# Table 3-7 of the Unicode Standard: the ranges of each byte of a well-formed sequence.
TAIL = (0x80, 0xBF)
TABLE = [
    [(0x00, 0x7F)],
    [(0xC2, 0xDF), TAIL],
    [(0xE0, 0xE0), (0xA0, 0xBF), TAIL],
    [(0xE1, 0xEC), TAIL, TAIL],
    [(0xED, 0xED), (0x80, 0x9F), TAIL],
    [(0xEE, 0xEF), TAIL, TAIL],
    [(0xF0, 0xF0), (0x90, 0xBF), TAIL, TAIL],
    [(0xF1, 0xF3), TAIL, TAIL, TAIL],
    [(0xF4, 0xF4), (0x80, 0x8F), TAIL, TAIL],
]


class Fault(Exception):
    def __init__(self, number, place):
        super().__init__(number, place)
        self.number = number
        self.place = place


def fits_row(row, text, at):
    piece = text[at : at + len(row)]
    return len(piece) == len(row) and all(low <= b <= high for b, (low, high) in zip(piece, row))


def well_formed(text):
    """How far the text is well formed: its length, or the start of its first ill-formed sequence."""
    at = 0
    while at < len(text):
        row = next((row for row in TABLE if fits_row(row, text, at)), None)
        if row is None:
            return at
        at += len(row)
    return at


def read_line(data, start):
    """The content of the line of the item at `start`, and the place after its CR LF."""
    begin = start + 1
    for count in range(LINE_LIMIT + 1):
        at = begin + count
        if at >= len(data):
            raise Fault(10, len(data))
        if data[at] == LF:
            raise Fault(12, start)
        if data[at] == CR:
            if at + 1 >= len(data):
                raise Fault(10, len(data))
            if data[at + 1] != LF:
                raise Fault(12, start)
            return data[begin:at], at + 2
    raise Fault(13, start)


def demand(pattern, content, start):
    if not pattern.match(content):
        raise Fault(14, start)


def read_size(content, limit, start):
    demand(PLAIN, content, start)
    size = int(content)
    if size > limit:
        raise Fault(15, start)
    return size


def demand_text(text, place):
    good = well_formed(text)
    if good < len(text):
        raise Fault(17, place + good)


def read_body(data, start, kind, size, begin):
    end = begin + size
    if end + 2 > len(data):
        raise Fault(10, len(data))
    if data[end] != CR or data[end + 1] != LF:
        raise Fault(16, end)
    body = data[begin:end]
    if kind == ord("=") and (size < 4 or body[3] != ord(":")):
        raise Fault(14, start)
    if kind != ord("$"):
        demand_text(body, begin)
    return end + 2


def read_scalar(content, start, kind):
    if kind in b"+-":
        demand_text(content, start + 1)
    elif kind == ord(":"):
        demand(INTEGER, content, start)
        if not -(2**63) <= int(content) < 2**63:
            raise Fault(14, start)
    else:
        pattern = {"_": EMPTY, "#": BOOLEAN, ",": DOUBLE, "(": BIG}[chr(kind)]
        demand(pattern, content, start)


def read_items(data, start, kind, count, at, depth):
    if kind == ord(">") and count == 0:
        raise Fault(14, start)
    for index in range(count):
        first = at
        at, is_name = read_item(data, at, depth + 1)
        if kind == ord(">") and index == 0 and not is_name:
            raise Fault(14, first)
    return at


def read_item(data, start, depth):
    """The place after the item at `start`, and whether it may name a push."""
    if start >= len(data):
        raise Fault(10, len(data))
    if depth > DEPTH_LIMIT:
        raise Fault(15, start)
    kind = data[start]
    if kind not in KINDS:
        raise Fault(11, start)
    content, at = read_line(data, start)
    if kind in b"$*" and content == b"-1":
        return at, False
    if kind in BODIES:
        size = read_size(content, BODY_LIMIT, start)
        return read_body(data, start, kind, size, at), kind == ord("$")
    if kind in ITEMS:
        count = read_size(content, ITEM_LIMIT, start)
        return read_items(data, start, kind, count, at, depth), False
    if kind in PAIRS:
        replies = 2 * read_size(content, PAIR_LIMIT, start) + (1 if kind == ord("|") else 0)
        return read_items(data, start, kind, replies, at, depth), False
    read_scalar(content, start, kind)
    return at, kind == ord("+")


def wire_answer(data):
    try:
        end, _ = read_item(data, 0, 1)
        return f"ok\t{end}"
    except Fault as fault:
        return f"no\twire {fault.number} {fault.place}"


def answer(line):
    """The expected answer to a line of the input, given without its LF."""
    shape, tab, text = line.partition(b"\t")
    if not tab:
        return "bad\tno tab"
    if shape != b"wire":
        return "bad\tunknown shape"
    if len(text) % 2 != 0:
        return "bad\todd hex"
    if not re.match(rb"[0-9a-fA-F]*\Z", text):
        return "bad\tnot hex"
    return wire_answer(bytes.fromhex(text.decode()))


# ---------------------------------------------------------------------------------------------
# Worked examples, answered by hand: the reader must give these.

EXAMPLES = [
    (b"", "no\twire 10 0"),
    (b"+OK\r\n", "ok\t5"),
    (b"$5\r\nabc", "no\twire 10 7"),
    (b":+5\r\n", "no\twire 14 0"),
    (b"$60001\r\n", "no\twire 15 0"),
    (b"$1\r\nabc", "no\twire 16 5"),
    (b"?1\r\n", "no\twire 11 0"),
    (b"=3\r\nabc", "no\twire 10 7"),
    (b"=3\r\nabc\r\n", "no\twire 14 0"),
    (b"=4\r\nabcd\r\n", "no\twire 14 0"),
    (b"*1\r\n" * 31 + b"*0\r\n", "ok\t128"),
    (b"*1\r\n" * 32 + b"*0\r\n", "no\twire 15 128"),
    (b">0\r\n", "no\twire 14 0"),
    (b">1\r\n:1\r\n", "no\twire 14 4"),
    (b"+ab\xc3\x28\r\n", "no\twire 17 3"),
    (b"*2\r\n:1\r\n:01\r\n", "no\twire 14 8"),
    (b":" + b"1" * 1025, "no\twire 13 0"),
    (b"+a\nb\r\n", "no\twire 12 0"),
]


def check_reader():
    for data, expected in EXAMPLES:
        assert wire_answer(data) == expected, (data, wire_answer(data), expected)
    # The table as typed above, held against the codec of Python on random bytes.
    chance = random.Random(37)
    lively = bytes([0x41, 0x7F, 0x80, 0x8F, 0x90, 0x9F, 0xA0, 0xBF, 0xC1, 0xC2, 0xDF, 0xE0, 0xE1])
    lively += bytes([0xEC, 0xED, 0xEE, 0xEF, 0xF0, 0xF1, 0xF3, 0xF4, 0xF5, 0xFF])
    for _ in range(20_000):
        text = bytes(chance.choice(lively) for _ in range(chance.randrange(8)))
        try:
            text.decode("utf-8")
            codec = len(text)
        except UnicodeDecodeError as error:
            codec = error.start
        assert well_formed(text) == codec, text


# ---------------------------------------------------------------------------------------------
# The vectors


class Vectors:
    def __init__(self):
        self.lines = []
        self.sorts = Counter()
        self.seen = set()

    def line(self, sort, line):
        if line not in self.seen:
            self.seen.add(line)
            self.lines.append(line)
            self.sorts[sort] += 1

    def wire(self, sort, data):
        self.line(sort, b"wire\t" + data.hex().encode())


def line_of(kind, content):
    return kind + content + b"\r\n"


def body_of(kind, body):
    return kind + str(len(body)).encode() + b"\r\n" + body + b"\r\n"


def held(kind, count, *items):
    return kind + str(count).encode() + b"\r\n" + b"".join(items)


ONE = b":1\r\n"
NULL = b"_\r\n"

# Whole replies of each kind.
SAMPLES = [
    b"+OK\r\n",
    b"+\r\n",
    b"+O\r\n",
    b"+OKAY\r\n",
    b"+ok\r\n",
    "+Größe 数 😀\r\n".encode(),
    b"+$-1 \x00\t\x7f\r\n",
    b"-ERR no such key\r\n",
    b"-\r\n",
    b"-MOVED 3999 127.0.0.1:6381\r\n",
    b":0\r\n",
    b":7\r\n",
    b":-7\r\n",
    b":1000\r\n",
    b"$0\r\n\r\n",
    b"$5\r\nhello\r\n",
    b"$4\r\n\r\n\r\n\r\n",
    b"$3\r\n\xff\x00\xc0\r\n",
    b"$-1\r\n",
    b"*0\r\n",
    b"*-1\r\n",
    b"*2\r\n+a\r\n:2\r\n",
    b"*3\r\n$-1\r\n*-1\r\n_\r\n",
    b"_\r\n",
    b"#t\r\n",
    b"#f\r\n",
    b",1.5\r\n",
    b",-0\r\n",
    b",+12.50e-03\r\n",
    b",007E+8\r\n",
    b",inf\r\n",
    b",-inf\r\n",
    b",nan\r\n",
    b"(123456789012345678901234567890\r\n",
    b"(-0\r\n",
    b"(+007\r\n",
    b"!5\r\nERR x\r\n",
    b"!0\r\n\r\n",
    b"!4\r\na\r\nb\r\n",
    b"=7\r\ntxt:abc\r\n",
    b"=4\r\ntxt:\r\n",
    b"=6\r\n\r\n::\r\n\r\n",
    b"%0\r\n",
    b"%2\r\n+a\r\n:1\r\n+b\r\n*1\r\n#t\r\n",
    b"|0\r\n+x\r\n",
    b"|1\r\n+ttl\r\n:3600\r\n$1\r\nv\r\n",
    b"|1\r\n+a\r\n:1\r\n|1\r\n+b\r\n:2\r\n*0\r\n",
    b"~0\r\n",
    b"~2\r\n:1\r\n,2.5\r\n",
    b">1\r\n+a\r\n",
    b">1\r\n+OK\r\n",
    b">1\r\n$0\r\n\r\n",
    b">2\r\n$10\r\ninvalidate\r\n*1\r\n$1\r\nk\r\n",
    b">3\r\n+message\r\n$-1\r\n_\r\n",
]

# Deeper mixtures, for prefixes and for damage.
MIXTURES = [
    b"*3\r\n:1\r\n%1\r\n+k\r\n~2\r\n#t\r\n,1.5\r\n$2\r\nxy\r\n",
    b"|1\r\n+a\r\n%1\r\n:1\r\n_\r\n*2\r\n=5\r\ntxt:z\r\n!3\r\nE r\r\n",
    b">2\r\n$3\r\nsub\r\n%2\r\n+a\r\n(12\r\n+b\r\n*-1\r\n",
    b"~1\r\n|1\r\n-E\r\n:-5\r\n>1\r\n+p\r\n",
    "*4\r\n+é€\r\n-𐍈\r\n!4\r\néé\r\n=6\r\nmkd:é\r\n".encode(),
    b"%1\r\n*2\r\n$1\r\na\r\n$1\r\nb\r\n~1\r\n~1\r\n~0\r\n",
]


def add_whole(out):
    for data in SAMPLES + MIXTURES:
        out.wire("whole", data)
    last_of_kind = {data[0]: data for data in SAMPLES}
    for data in last_of_kind.values():
        out.wire("whole, with bytes after it", data + b"+next\r\n")
    for tail in (b"\r\n", b"\x00", b"?", b"\n", b"$5"):
        for data in (b"+OK\r\n", b"$2\r\nab\r\n", b"*1\r\n:1\r\n", b"%0\r\n", b"|0\r\n:1\r\n"):
            out.wire("whole, with bytes after it", data + tail)


def add_prefixes(out):
    chosen = [
        b"+OK\r\n",
        b"-ERR\r\n",
        b":-12\r\n",
        b"$3\r\nabc\r\n",
        b"$-1\r\n",
        b"*2\r\n:1\r\n_\r\n",
        b"*-1\r\n",
        b"#t\r\n",
        b",-1.5e3\r\n",
        b"(-12\r\n",
        b"!2\r\nE1\r\n",
        b"=5\r\ntxt:a\r\n",
        b"%1\r\n+a\r\n:1\r\n",
        b"|1\r\n+a\r\n:1\r\n+v\r\n",
        b"~1\r\n$1\r\nx\r\n",
        b">2\r\n+a\r\n$0\r\n\r\n",
    ]
    for data in chosen + MIXTURES[:3]:
        for end in range(len(data)):
            out.wire("prefix", data[:end])


def add_first_characters(out):
    for kind in range(256):
        if kind not in KINDS and (chr(kind) in "\0\n\r \"&')./19;<?@AZ[^`az{}\x7f" or kind in (0x80, 0xAB, 0xC3, 0xFF)):
            out.wire("unknown kind", bytes([kind]) + b"1\r\n")
    for data in (b"?", b"\r\n", b"\n", b"PING\r\n", b"*1\r\n?1\r\n", b"%1\r\n+a\r\n@\r\n", b"*2\r\n:1\r\nz"):
        out.wire("unknown kind", data)


def add_stray_ends(out):
    for kind in (bytes([k]) for k in KINDS):
        for content in (b"\n", b"1\n\r\n", b"\rx", b"1\r\r\n"):
            out.wire("stray CR or LF", kind + content)
    for data in (b"+OK\n", b"+a\r", b"+a\r\r", b"+a\r\n\n", b"*1\r\n+a\nb\r\n", b"+\xff\n", b"*1\r\n$1\n", b"x\n"):
        out.wire("stray CR or LF", data)


def add_long_lines(out):
    sort = "line of 1,024 and 1,025 bytes"
    fills = {
        b"+": b"a", b"-": b"b", b":": b"1", b"$": b"1", b"*": b"1", b"_": b"x", b"#": b"t", b",": b"1",
        b"(": b"9", b"!": b"2", b"=": b"3", b"%": b"4", b"|": b"5", b"~": b"6", b">": b"7",
    }
    for kind, fill in fills.items():
        out.wire(sort, kind + fill * 1024 + b"\r\n")
        out.wire(sort, kind + fill * 1025 + b"\r\n")
    full = b"+" + b"a" * 1024
    for end in (b"", b"\r", b"\n", b"\rx", b"\r\r\n", b"a", b"a\r", b"a\n", b"\xff", b"\r\n+next\r\n"):
        out.wire(sort, full + end)
    for content in (b"0." + b"5" * 1022, b"1e" + b"0" * 1022, b"0." + b"5" * 1023):
        out.wire(sort, b"," + content + b"\r\n")
    for content in (b"\xff" * 1024, b"a" * 1023 + b"\xff", b"a" * 1022 + b"\xc3\xa9", b"\xff" * 1025):
        out.wire(sort, b"+" + content + b"\r\n")
    out.wire(sort, b"+" + b"a" * 1022 + b"\n")
    out.wire(sort, b"*2\r\n:1\r\n+" + b"a" * 1025 + b"\r\n")
    out.wire(sort, b"*1\r\n-" + b"a" * 1024 + b"\r\n")


def add_integers(out):
    top = 2**63
    numbers = [0, 1, 9, 10, top - 1, top, top + 1, 10 * top, 2**64 - 1, 2**64, 10**19, 9999999999999999999, 10**30]
    for number in numbers:
        for text in (str(number), "-" + str(number), "+" + str(number), "0" + str(number)):
            out.wire("integer", line_of(b":", text.encode()))
    for number in (top + 2, 2**64 + 5, 2**128 + 1):
        out.wire("integer", line_of(b":", str(-number).encode()))
    wrong = [b"", b"-", b"+", b"--1", b"1-", b" 1", b"1 ", b"1.0", b"1e3", b"0x10", b"-00", b"-01", b"1_000", b"a", b":1", b"/", b"\xd9\xa1"]
    for content in wrong:
        out.wire("integer", line_of(b":", content))


def add_sizes(out):
    sort = "length or count"
    limits = {b"$": 60_000, b"!": 60_000, b"=": 60_000, b"*": 4_096, b"~": 4_096, b">": 4_096, b"%": 2_048, b"|": 2_048}
    for kind, limit in limits.items():
        for size in (limit, limit + 1, 2**32, 2**64 + 1, 10**40):
            out.wire(sort, line_of(kind, str(size).encode()))
        for content in (b"", b"-1", b"-2", b"+1", b"00", b"060001", b"1a", b"-"):
            out.wire(sort, line_of(kind, content))
        out.wire(sort, line_of(kind, b"-1") + b"a\r\n")
        out.wire(sort, b"*1\r\n" + line_of(kind, str(limit + 1).encode()))
    for kind in (b"$", b"*"):
        for content in (b"-0", b"-10", b"-1 ", b"--1", b"01", b"1 ", b" 1", b"1.5", b"?", b"/", b":"):
            out.wire(sort, line_of(kind, content))
        for size in (limits[kind] - 1, 10 * limits[kind], 2**63, 2**64):
            out.wire(sort, line_of(kind, str(size).encode()))
    out.wire("body of 60,000 bytes", body_of(b"$", bytes(i * 7 % 256 for i in range(60_000))))
    out.wire("body of 60,000 bytes", body_of(b"=", b"txt:" + b"abcdefg\xc2\xa9" * 6_666 + b"ab"))
    many = "4,096 items or 2,048 pairs"
    for kind in (b"*", b"~"):
        out.wire(many, held(kind, 4_096, NULL * 4_096))
    out.wire(many, held(b">", 4_096, b"+p\r\n", NULL * 4_095))
    out.wire(many, held(b"%", 2_048, NULL * 4_096) + b":9\r\n")
    out.wire(many, held(b"|", 2_048, NULL * 4_097))
    out.wire(many, held(b"*", 4_096, NULL * 4_095))
    out.wire(many, held(b"|", 2_048, NULL * 4_096))
    out.wire(many, held(b"%", 2_048, NULL * 4_095))


def add_bodies(out):
    sort = "body"
    for kind in (b"$", b"!", b"="):
        for data in (
            b"1\r\nabc", b"1\r\na\rb", b"1\r\na\n\r", b"1\r\nab\r\n", b"4\r\nabc\r\n", b"4\r\nabc\r\n\r\n",
            b"0\r\n", b"0\r\n\r", b"0\r\n\r\n", b"0\r\nx\r\n", b"5\r\nabc:d\r", b"5\r\nabc:d\r\n", b"5\r\nabc:dxy", b"5\r\nabc:d\rx", b"5\r\n\xff\xfe:d\r\r\n", b"5\r\n\xff\xfe::d\r\n",
            b"3\r\nabc", b"3\r\nabc\r\n", b"3\r\nabcde", b"3\r\n\xffbc\r\n", b"4\r\nabcd\r\n", b"4\r\nabc:\r\n", b"4\r\nab\xff:\r\n",
            b"4\r\nab:\xff\r\n", b"4\r\n\xff\xff\xff\xff\r\n", b"5\r\nabcd:\r\n", b"6\r\n\xc3\xa9x:\xc3\xa9\r\n", b"6\r\nx\xc3:\xa9:a\r\n",
            b"7\r\n\xe2\x82\xac:abc\r\n", b"7\r\ntxt:ab\xc3\r\n", b"2\r\n\xc3\xa9\r\n", b"1\r\n\xc3\xa9\r\n",
        ):
            out.wire(sort, kind + data)
        out.wire(sort, b"*2\r\n:5\r\n" + kind + b"5\r\nabc:dxy")


def add_lines_of_kinds(out):
    sort = "content of a line"
    contents = {
        b"_": [b" ", b"x", b"-1", b"0", b"\x00", b"nil"],
        b"#": [b"", b"T", b"F", b"tt", b"true", b"false", b"1", b"0", b"t ", b" t", b"u", b"s", b"\xff"],
        b"(": [b"", b"-", b"+", b"0", b"00", b"-00", b"+1", b"--1", b"+-1", b"1-", b"1.0", b"1e3", b"12a", b"inf", b" 1", b"1" * 400, b"-" + b"0" * 300, b"/", b":"],
        b",": [
            b"", b"+", b"-", b".", b"1.", b".5", b"-.5", b"1.5", b"+1.5", b"00.00", b"1.2.3", b"1e", b"1e+", b"1e-", b"1E5", b"1e5", b"1e+5", b"1e-5", b"1.e5",
            b"e5", b"1e5.0", b"1e5e5", b"1e999999999", b"--1", b"+-1", b"inf", b"-inf", b"+inf", b"nan", b"-nan", b"+nan", b"Inf", b"INF", b"NaN", b"infinity",
            b"inf ", b"in", b"na", b"i", b"n", b"nan1", b"1 ", b" 1", b"1,5", b"0x1p3", b"1_0", b"9" * 400, b"1.0f", b"+0", b"-0.0e-0", b"1.5E+05", b"\xd9\xa1", b"-i", b"1e--5",
        ],
    }
    for kind, wrong in contents.items():
        for content in wrong:
            out.wire(sort, line_of(kind, content))


def add_pushes(out):
    sort = "push"
    firsts = [
        b"+a\r\n", b"+OK\r\n", b"+\r\n", b"$1\r\na\r\n", b"$0\r\n\r\n", b"$-1\r\n", b"-a\r\n", b":1\r\n", b"*0\r\n", b"*-1\r\n", b"_\r\n",
        b"#t\r\n", b",1\r\n", b"(1\r\n", b"!1\r\na\r\n", b"=4\r\ntxt:\r\n", b"%0\r\n", b"|0\r\n+a\r\n", b"~0\r\n", b">1\r\n+a\r\n",
        b"*1\r\n+a\r\n", b"|1\r\n+k\r\n:1\r\n$1\r\na\r\n",
    ]
    for first in firsts:
        out.wire(sort, b">1\r\n" + first)
        out.wire(sort, b">2\r\n" + first + b":1\r\n")
    for data in (
        b">0\r\n+a\r\n", b">0\r\n", b">0\r", b">-1\r\n", b">1\r\n", b">1\r\n?\r\n", b">1\r\n:1", b">1\r\n:01\r\n", b">1\r\n*1\r\n", b">1\r\n*1\r\n?",
        b">1\r\n*2\r\n:1\r\n:x\r\n", b">1\r\n$2\r\nabc\r\n", b">1\r\n+\xff\r\n", b">1\r\n-\xff\r\n", b">1\r\n=3\r\nabc\r\n", b">2\r\n:1\r\n?\r\n", b">1\r\n>0\r\n",
        b">1\r\n>1\r\n:1\r\n", b"*1\r\n>0\r\n", b"*2\r\n:1\r\n>1\r\n_\r\n", b"*1\r\n>1\r\n+a\r\n", b">1\r\n$60001\r\n", b">1\r\n$-2\r\n", b">4097\r\n:1\r\n", b">00\r\n",
    ):
        out.wire(sort, data)


def add_depths(out):
    sort = "depth"
    for holder in (b"*1\r\n", b"~1\r\n", b"%1\r\n+k\r\n", b"%1\r\n", b"|0\r\n", b"|1\r\n+k\r\n:1\r\n", b"|1\r\n+k\r\n", b">2\r\n+k\r\n", b">1\r\n"):
        out.wire(sort, holder * 31 + b"+k\r\n" + NULL * 62)
        out.wire(sort, holder * 32 + b"+k\r\n" + NULL * 62)
        out.wire(sort, holder * 32)
    deep, over = b"*1\r\n" * 31, b"*1\r\n" * 32
    ends = (b"", b"*0\r\n", b"*1\r\n", b"?", b"?1\r\n", b"+\xff\r\n", b":x\r\n", b"$60001\r\n", b"+a\nb", b"\r\n", b"*", b"%0\r\n", b"%1\r\n", b"|0\r\n", b">0\r\n", b">1\r\n", b"$1\r\na\r\n", b"$1\r\nabc")
    for end in ends:
        out.wire(sort, deep + end)
        out.wire(sort, over + end)
    mixed = b"*1\r\n%1\r\n+k\r\n|0\r\n~1\r\n" * 8
    out.wire(sort, mixed[: -len(b"~1\r\n")] + b"*0\r\n")
    out.wire(sort, mixed + b"*0\r\n")
    out.wire(sort, mixed + b"?")
    out.wire(sort, b"*2\r\n:1\r\n" * 31 + b"*0\r\n")
    out.wire(sort, b"*2\r\n" + b"*1\r\n" * 30 + b"*0\r\n" + b"*1\r\n" * 31 + b":1\r\n")
    out.wire(sort, b"*2\r\n" + b"*1\r\n" * 30 + b"*0\r\n" + b"*1\r\n" * 30 + b"_\r\n")


def sequences():
    """Sequences at the edges of each row of table 3-7, well formed and ill formed."""
    for row in TABLE:
        low, high = (bytes(r[side] for r in row) for side in (0, 1))
        if len(row) == 1:
            yield from (b"\x00", b"\x7f", b"\x80")
            continue
        yield from (low, high)
        for place, (least, most) in enumerate(row):
            for outside in (least - 1, most + 1):
                yield low[:place] + bytes([outside]) + low[place + 1 :]
        for end in range(1, len(row)):
            yield low[:end]
            yield high[:end] + b"z"
    for lead in [0xC0, 0xC1] + list(range(0xF5, 0x100)):
        yield bytes([lead, 0x80, 0x80, 0x80])
    yield from (b"\x80", b"\xbf", b"\xbf\x80", b"\xc3\xa9\x80", b"\xe2\x82\xac\xbf")
    yield from (b"\xed\xa0\x80", b"\xed\xbf\xbf", b"\xed\xa0\x80\xed\xb0\x80")
    yield from (b"\xc0\x80", b"\xc1\xbf", b"\xe0\x80\x80", b"\xe0\x9f\xbf", b"\xf0\x80\x80\x80", b"\xf0\x8f\xbf\xbf")
    yield from (b"\xf4\x90\x80\x80", b"\xf7\xbf\xbf\xbf", b"\xfe", b"\xff", b"\xef\xbb\xbf", b"\xef\xbf\xbe")


def add_texts(out):
    sort = "UTF-8"
    good = b""
    for number, text in enumerate(dict.fromkeys(sequences())):
        before = (b"", b"a", b"\xc3\xa9", b"\xf0\x9f\x98\x80x")[number % 4]
        whole = before + text + (b"", b"z")[number // 4 % 2]
        out.wire(sort, line_of(b"+", whole))
        out.wire(sort, body_of(b"=", b"txt:" + whole))
        if well_formed(text) < len(text):
            out.wire(sort, line_of(b"-", b"E " + text))
            out.wire(sort, body_of(b"!", text + b"\r\n"))
        else:
            good += text
    out.wire(sort, line_of(b"-", good))
    out.wire(sort, body_of(b"!", good))
    for text in (b"\xc3", b"\xe2\x82", b"\xff", b"\xf0\x9f\x98"):
        out.wire(sort, b"*2\r\n+a\r\n" + line_of(b"+", b"abc" + text))
        out.wire(sort, b"%1\r\n" + body_of(b"!", b"abc" + text) + b":1\r\n")
        out.wire(sort, b"+" + text)
        out.wire(sort, body_of(b"$", text))


def damage(chance, data):
    data = bytearray(data)
    for _ in range(chance.choice((1, 1, 1, 2, 3))):
        place = chance.randrange(len(data)) if data else 0
        piece = bytes([chance.choice(KINDS + b"0123456789\r\n\r\n-+ :\xff\xc3\x80\xe2")])
        what = chance.randrange(6)
        if what == 0:
            data[place : place + 1] = piece
        elif what == 1:
            data[place:place] = piece
        elif what == 2:
            del data[place : place + 1]
        elif what == 3:
            del data[place:]
        elif what == 4:
            data[place : place + 1] = bytes([chance.randrange(256)])
        else:
            data[place:place] = data[place : place + chance.randrange(1, 9)]
    return bytes(data)


def add_damage(out):
    chance = random.Random(7)
    good = [data for data in SAMPLES if len(data) > 8] + MIXTURES * 6
    while out.sorts["damaged at random"] < 250:
        out.wire("damaged at random", damage(chance, chance.choice(good)))


def add_captures(out, folder):
    for path in sorted(folder.iterdir()):
        if path.suffix in (".resp2", ".resp3"):
            # Two files can hold the same bytes: each has its own line.
            data = path.read_bytes()
            out.lines.append(b"wire\t" + data.hex().encode())
            out.sorts["reply of a real server"] += 1


def add_lines(out):
    sort = "the line itself"
    for line in (
        b"frob\t00", b"wires\t00", b"wir\t00", b"WIRE\t2b", b"wire \t2b", b" wire\t2b", b"\t2b4f4b0d0a", b"\t", b"frob\t", b"frob\t0", b"frob\txx",
        b"wire", b"", b"wire 2b", b"2b4f4b0d0a", b"frob", b"wire\xff", b"\xff\xfe\x00",
        b"wire\t2", b"wire\t2b4", b"wire\t2b4f4b0d0", b"wire\tg", b"wire\t2b4f4b0d0a\r", b"wire\t2b ",
        b"wire\t2g", b"wire\tg2", b"wire\t2b4f4b0d0a  ", b"wire\t0x2b", b"wire\t2b\t2", b"wire\t\t0", b"wire\t/0", b"wire\t:0", b"wire\t@0", b"wire\tG0",
        b"wire\t`0", b"wire\tg0", b"wire\t\xff\xff", b"wire\t\x00\x00", b"wire\t2b4f4b0d0a\xc3\xa9", b"wire\t-1", b"wire\t2b4f4b0d0a\r\r",
        b"wire\t", b"wire\t2B4F4B0D0A", b"wire\t2b4F4b0D0a", b"wire\tAF", b"wire\tfa",
    ):
        out.line(sort, line)


def main():
    folder = Path(sys.argv[1]) if len(sys.argv) > 1 else HOME / "samples" / "captures"
    check_reader()
    out = Vectors()
    for add in (
        add_lines, add_whole, add_prefixes, add_first_characters, add_stray_ends, add_long_lines, add_integers, add_sizes, add_bodies,
        add_lines_of_kinds, add_pushes, add_depths, add_texts, add_damage,
    ):
        add(out)
    add_captures(out, folder)
    crate = HOME / "crates" / "compare"
    asked = b"".join(line + b"\n" for line in out.lines)
    answers = [answer(line) for line in out.lines]
    (crate / "stdin").write_bytes(asked)
    (crate / "stdout").write_text("".join(text + "\n" for text in answers))
    for sort, count in out.sorts.items():
        print(f"{count:5} {sort}")
    print(f"{len(out.lines):5} lines, {len(asked)} bytes")
    for word, count in sorted(Counter(re.sub(r"\d+$", "", text) for text in answers).items()):
        print(f"{count:5} {word}")


if __name__ == "__main__":
    main()
