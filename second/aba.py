"""A second, independent reader of ABA files, after docs/LAYOUT.md,
docs/REFUSALS.md and docs/HOUSES.md, without sight of the engine's code.

    read(data, house)     -> Summary, or a Fault; under the plain house if none is given
    record(data, line)    -> Header, Detail or Trailer, or a Fault
    house_of(words)       -> Plain, Listed or Balanced, or a Fault; may raise Misused
    show(data)            -> the line that the program `show` prints
    inspect(words, data)  -> the bytes that the program `inspect` prints

Without words on the command line it does what `show` does, with words what
`inspect` does.

It is a plain walk over each record from left to right.  The first thing that
is wrong is raised, so "the first faulty field in column order" needs no care:
whatever is judged first is further left.
"""

import datetime
import functools
import os
import sys
from dataclasses import dataclass, field

LINE = 122                  # 120 columns, CR, LF
MOST_DETAILS = 999_999
SHOW_LIMIT = 65_514         # bytes `show` takes from standard input
LONGEST = LINE * (MOST_DETAILS + 2)     # bytes of the largest possible file
BANK_LINES = 100            # lines that a bank list has room for

DIGITS = frozenset(b"0123456789")
LETTERS = frozenset(b"ABCDEFGHIJKLMNOPQRSTUVWXYZabcdefghijklmnopqrstuvwxyz")
OTHERS = frozenset(b" +-@$!%&()*./#=:;?,'[]_^")
CHARACTERS = DIGITS | LETTERS | OTHERS
assert len(CHARACTERS) == 86

DEBIT = 13
CODES = (13, 50, 51, 52, 53, 54, 55, 56, 57)

LAYERS = {
    1: "line", 2: "line",
    3: "record", 11: "record",
    4: "file", 17: "file", 18: "file", 20: "file",
    5: "run", 13: "run", 14: "run", 15: "run", 16: "run", 21: "run",
    6: "field", 7: "field", 8: "field", 9: "field", 10: "field",
    12: "house", 19: "house",
}


# ---------------------------------------------------------------- answers

@dataclass(frozen=True)
class Fault:
    number: int
    line: int
    column: int
    reason: int = 0             # a house's reason, for 12 and 19 only

    @property
    def layer(self):
        return LAYERS[self.number]

    def __str__(self):
        reason = f" reason={self.reason}" if self.layer == "house" else ""
        return (f"refused {self.number} {self.layer} "
                f"line={self.line} column={self.column}{reason}")


@dataclass(frozen=True)
class Header:
    bank: bytes
    user_name: bytes
    user_number: int
    description: bytes
    date: datetime.date


@dataclass(frozen=True)
class Detail:
    bsb: int
    account: bytes
    mark: bytes
    code: int
    cents: int
    title: bytes
    reference: bytes
    trace_bsb: int
    trace_account: bytes
    remitter: bytes
    tax: int


@dataclass(frozen=True)
class Trailer:
    net: int
    credit: int
    debit: int
    count: int


@dataclass
class Summary:
    """Totals and tally of the details seen so far."""
    counts: dict = field(default_factory=lambda: dict.fromkeys(CODES, 0))
    cents: dict = field(default_factory=lambda: dict.fromkeys(CODES, 0))
    last: Detail = None

    def add(self, detail):
        self.counts[detail.code] += 1
        self.cents[detail.code] += detail.cents
        self.last = detail

    @property
    def details(self):
        return sum(self.counts.values())

    @property
    def debit(self):
        return self.cents[DEBIT]

    @property
    def credit(self):
        return sum(self.cents.values()) - self.debit

    @property
    def net(self):
        return abs(self.credit - self.debit)

    def __str__(self):
        return (f"accepted details={self.details} net={self.net} "
                f"credit={self.credit} debit={self.debit}")


# ------------------------------------------------- fields of one record

class Wrong(Exception):
    """Something is wrong at a column of the record being walked over."""

    def __init__(self, number, column):
        super().__init__(number, column)
        self.number = number
        self.column = column


class Walk:
    """Takes fields off the 120 columns of a record, from left to right."""

    def __init__(self, columns):
        self.columns = columns
        self.done = 0               # columns already taken

    def take(self, width, admits):
        """The next `width` bytes; the first one not admitted is refusal 7."""
        first = self.done + 1
        taken = self.columns[self.done:self.done + width]
        for place, byte in enumerate(taken):
            if not admits(place, byte):
                raise Wrong(7, first + place)
        self.done += width
        return first, taken

    def fixed(self, given):
        self.take(len(given), lambda place, byte: byte == given[place])

    def blanks(self, width):
        self.fixed(b" " * width)

    def number(self, width):
        _, digits = self.take(width, lambda _, byte: byte in DIGITS)
        return int(digits)

    def number_above_zero(self, width):
        first = self.done + 1
        value = self.number(width)
        if value == 0:
            raise Wrong(8, first)
        return value

    def text(self, width):
        first, taken = self.take(width, lambda _, byte: byte in CHARACTERS)
        value = taken.rstrip(b" ")
        if not value:
            raise Wrong(8, first)
        if value.startswith(b" "):
            raise Wrong(9, first)
        return value

    def account(self):
        first, taken = self.take(9, lambda _, byte: byte in b"0123456789- ")
        if not any(byte in b"123456789" for byte in taken):
            raise Wrong(8, first)
        value = taken.lstrip(b" ")
        gap = value.find(b" ")
        if gap >= 0:
            raise Wrong(9, first + len(taken) - len(value) + gap)
        return value

    def bsb(self):
        _, taken = self.take(
            7, lambda place, byte: byte == ord("-") if place == 3 else byte in DIGITS)
        return int(taken[:3] + taken[4:])

    def date(self):
        first, digits = self.take(6, lambda _, byte: byte in DIGITS)
        day, month, year = int(digits[0:2]), int(digits[2:4]), int(digits[4:6])
        try:
            return datetime.date(2000 + year, month, day)
        except ValueError:
            raise Wrong(10, first) from None

    def mark(self):
        _, taken = self.take(1, lambda _, byte: byte in b" NWXY")
        return taken

    def code(self):
        first, digits = self.take(2, lambda _, byte: byte in DIGITS)
        if int(digits) not in CODES:
            raise Wrong(10, first)
        return int(digits)


# ------------------------------------------------------ the three records

def header_of(columns):
    walk = Walk(columns)
    walk.fixed(b"0")
    walk.blanks(17)
    walk.fixed(b"01")
    bank = walk.text(3)
    walk.blanks(7)
    user_name = walk.text(26)
    user_number = walk.number(6)
    description = walk.text(12)
    date = walk.date()
    walk.blanks(40)
    assert walk.done == 120
    return Header(bank, user_name, user_number, description, date)


def detail_of(columns):
    walk = Walk(columns)
    walk.fixed(b"1")
    bsb = walk.bsb()
    account = walk.account()
    mark = walk.mark()
    code = walk.code()
    cents = walk.number_above_zero(10)
    title = walk.text(32)
    reference = walk.text(18)
    trace_bsb = walk.bsb()
    trace_account = walk.account()
    remitter = walk.text(16)
    tax = walk.number(8)
    assert walk.done == 120
    if tax > 0 and mark not in (b"W", b"X", b"Y"):
        raise Wrong(11, 113)
    return Detail(bsb, account, mark, code, cents, title, reference,
                  trace_bsb, trace_account, remitter, tax)


def trailer_of(columns):
    walk = Walk(columns)
    walk.fixed(b"7")
    walk.fixed(b"999-999")
    walk.blanks(12)
    net = walk.number(10)
    credit = walk.number(10)
    debit = walk.number(10)
    walk.blanks(24)
    count = walk.number(6)
    walk.blanks(40)
    assert walk.done == 120
    return Trailer(net, credit, debit, count)


@functools.lru_cache(maxsize=4096)      # equal bytes are judged once
def judged(columns):
    """A record whose first byte is known to be 0, 1 or 7: its values, or Wrong."""
    try:
        if columns[0] == ord("0"):
            return header_of(columns)
        if columns[0] == ord("1"):
            return detail_of(columns)
        return trailer_of(columns)
    except Wrong as wrong:
        return wrong


# ----------------------------------------------------------------- houses

@dataclass(frozen=True)
class No:
    """A house's no; a tally's has no column."""
    reason: int
    column: int = 0


class Plain:
    """Says yes to everything; the base of the other two."""

    def header(self, header):
        return None

    def payment(self, payment):
        return None

    def tally(self, summary):
        return None


class Listed(Plain):
    """Made from bank lines: pairs of a number and a name."""

    def __init__(self, lines):
        self.lines = []
        for number, name in lines:
            given_number(number, 2, 2)
            given_text(name, 3, 21)
            if self.lines and number <= self.lines[-1][0]:
                raise Wrong(13, 0)
            if len(self.lines) == BANK_LINES:
                raise Wrong(14, 0)
            self.lines.append((number, name))

    def header(self, header):
        if all(name != header.bank for _, name in self.lines):
            return No(1, 21)
        return None

    def payment(self, payment):
        for bsb, column in ((payment.bsb, 2), (payment.trace_bsb, 81)):
            bank = int(f"{bsb:06}"[:2])
            if all(number != bank for number, _ in self.lines):
                return No(2, column)
        return None


class Balanced(Plain):
    """Made from the settling BSB and account."""

    def __init__(self, bsb, account):
        given_number(bsb, 6, 2)
        given_account(account, 9)
        self.bsb = bsb
        self.account = account

    def header(self, header):
        if header.bank != b"BQL":
            return No(1, 21)
        return semicolon((31, header.user_name), (63, header.description))

    def payment(self, payment):
        if payment.code in (51, 52):
            return No(2, 19)
        return semicolon((31, payment.title), (63, payment.reference), (97, payment.remitter))

    def tally(self, summary):
        if summary.credit != summary.debit:
            return No(4)
        last = summary.last
        if last is None or last.bsb != self.bsb or last.account != self.account:
            return No(5)
        if last.code == DEBIT:
            side = [DEBIT]
        else:
            side = [code for code in CODES if code != DEBIT]
        if sum(summary.counts[code] for code in side) > 1:
            return No(6)
        return None


def semicolon(*texts):
    """The first semicolon of texts given with their first columns."""
    for first, text in texts:
        if b";" in text:
            return No(3, first + text.index(b";"))
    return None


# What a house is made from is judged like the values of a form.

def given_number(value, width, first):
    if value >= 10 ** width:
        raise Wrong(6, first)


def given_text(value, width, first):
    if len(value) > width:
        raise Wrong(6, first)
    for place, byte in enumerate(value):
        if byte not in CHARACTERS:
            raise Wrong(7, first + place)
    if not value.strip(b" "):
        raise Wrong(8, first)
    if value[:1] == b" ":
        raise Wrong(9, first)
    if value[-1:] == b" ":
        raise Wrong(9, first + len(value) - 1)


def given_account(value, first):
    if len(value) > 9:
        raise Wrong(6, first)
    start = first + 9 - len(value)          # right justified
    for place, byte in enumerate(value):
        if byte not in b"0123456789- ":
            raise Wrong(7, start + place)
    if not any(byte in b"123456789" for byte in value):
        raise Wrong(8, first)
    if b" " in value:
        raise Wrong(9, start + value.index(b" "))


class Misused(Exception):
    """The words name no house."""


def house_of(words):
    """The house that these words (byte strings) name, or the Fault of its making."""
    try:
        if not words:
            raise Misused("no house named")
        kind, *rest = words
        if kind == b"plain":
            if rest:
                raise Misused("plain takes no further words")
            return Plain()
        if kind == b"listed":
            lines = []
            for word in rest:
                number, equals, name = word.partition(b"=")
                if not equals:
                    raise Misused("a bank line is NUMBER=NAME")
                lines.append((number_of(number), name))
            return Listed(lines)
        if kind == b"balanced":
            if len(rest) != 2:
                raise Misused("balanced takes a BSB and an account")
            return Balanced(number_of(rest[0]), rest[1])
        raise Misused("no such house")
    except Wrong as wrong:
        return Fault(wrong.number, 0, wrong.column)


def number_of(word):
    """Decimal digits, at least one, for a number of at most 64 bits."""
    if not word or any(byte not in DIGITS for byte in word):
        raise Misused("a number is decimal digits")
    if len(word.lstrip(b"0")) > 20 or int(word) >= 2 ** 64:
        raise Misused("a number has at most 64 bits")
    return int(word)


# --------------------------------------------------------------- the file

def framed(data, line):
    """Refusals 1 to 3 on a line: its 120 columns, or a Fault."""
    start = LINE * (line - 1)
    here = data[start:start + LINE] if line > 0 else b""
    if len(here) < LINE:
        return Fault(1, line, len(here) + 1)
    if here[120] != 13:
        return Fault(2, line, 121)
    if here[121] != 10:
        return Fault(2, line, 122)
    if here[0] not in (b"0" if line == 1 else b"17"):
        return Fault(3, line, 1)
    return here[:120]


def record(data, line):
    """One line of a file, judged by itself."""
    columns = framed(data, line)
    if isinstance(columns, Fault):
        return columns
    found = judged(columns)
    if isinstance(found, Wrong):
        return Fault(found.number, line, found.column)
    return found


def read(data, house=Plain()):
    """A whole file under a house."""
    summary = Summary()
    details = 0
    line = 0
    while True:
        line += 1
        columns = framed(data, line)
        if isinstance(columns, Fault):
            return columns
        if columns[0] == ord("1"):
            if details == MOST_DETAILS:
                return Fault(4, line, 1)
            details += 1
        found = judged(columns)
        if isinstance(found, Wrong):
            return Fault(found.number, line, found.column)
        if isinstance(found, Trailer):
            break
        if isinstance(found, Detail):
            no = house.payment(found)
            summary.add(found)
        else:
            no = house.header(found)
        if no:
            return Fault(12, line, no.column, no.reason)
    if details == 0:
        return Fault(17, line, 1)
    if found.net != summary.net:
        return Fault(18, line, 21)
    if found.credit != summary.credit:
        return Fault(18, line, 31)
    if found.debit != summary.debit:
        return Fault(18, line, 41)
    if found.count != details:
        return Fault(18, line, 75)
    no = house.tally(summary)
    if no:
        return Fault(19, line, 1, no.reason)
    if len(data) > LINE * line:
        return Fault(20, line + 1, 1)
    return summary


# ---------------------------------------------------- what programs print

def shown_bsb(number):
    return b"%03d-%03d" % divmod(number, 1000)


def shown(answer):
    """The answer of `record` as printed."""
    if isinstance(answer, Fault):
        return str(answer).encode()
    if isinstance(answer, Header):
        parts = [b"header", answer.bank, answer.user_name, b"%d" % answer.user_number,
                 answer.description, answer.date.strftime("%d/%m/%Y").encode()]
    elif isinstance(answer, Detail):
        parts = [b"detail", shown_bsb(answer.bsb), answer.account, answer.mark,
                 b"%d" % answer.code, b"%d" % answer.cents, answer.title, answer.reference,
                 shown_bsb(answer.trace_bsb), answer.trace_account, answer.remitter,
                 b"%d" % answer.tax]
    else:
        parts = [b"trailer", b"%d" % answer.net, b"%d" % answer.credit, b"%d" % answer.debit,
                 b"%d" % answer.count]
    return b"\t".join(parts)


def show(data):
    """What `show` prints for this standard input."""
    if len(data) > SHOW_LIMIT:
        return "too long\n"
    return f"{read(data)}\n"


def inspect(words, data):
    """What `inspect` prints to standard output for these words (strings or byte
    strings) and this standard input.  Its status is 0 if that begins with
    `accepted`, else 1."""
    words = [os.fsencode(word) for word in words]
    try:
        house = house_of(words)
    except Misused:
        return b""
    if isinstance(house, Fault):
        return b""
    answer = read(data, house)
    lines = [str(answer).encode()]
    if isinstance(answer, Summary):
        lines += [shown(record(data, line)) for line in range(1, answer.details + 3)]
    return b"".join(line + b"\n" for line in lines)


def main(words):
    if not words:
        sys.stdout.write(show(sys.stdin.buffer.read()))
        return 0
    printed = inspect(words, sys.stdin.buffer.read(LONGEST + 1))
    if not printed:
        print("inspect: no such house, or it cannot be made: " + repr(words), file=sys.stderr)
    sys.stdout.buffer.write(printed)
    return 0 if printed.startswith(b"accepted") else 1


if __name__ == "__main__":
    sys.exit(main(sys.argv[1:]))
