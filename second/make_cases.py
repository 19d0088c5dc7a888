"""Makes the stored test cases and their expected answers anew.

How to run it, from the repository root:

    python3 second/make_cases.py

It writes four files, always with the same bytes (own random numbers with a
fixed seed, no clock), and takes a few seconds:

    crates/vectors/stdin    the cases
    crates/vectors/stdout   the answers of second/aba.py to them
    crates/show/stdin       one file, the example of docs/LAYOUT.md
    crates/show/stdout      what `show` prints for it

A case in crates/vectors/stdin:

    case plain                  the house, in words as on a command line
    piece TIMES LENGTH          any number of pieces, none for an empty file;
    <LENGTH raw bytes>          each LF after the raw bytes belongs to the format
    records 0 1 2 3             line numbers to put to `record`, perhaps none

The file of the case is its pieces one after the other, each repeated TIMES
times.  The answer to it in crates/vectors/stdout:

    case K                      K counts from 1
    accepted ... | refused ...  the answer of `read`
    tally CODE:COUNT:CENTS ... last BSB ACCOUNT CODE      only if accepted
    N: ...                      the answer of `record` for each line number

where a record is shown as its values, separated by tabs.

All these cases are under the plain house; make_house_cases.py has the others.

Cases damaged on purpose also say which fault they expect.  That is checked
here against second/aba.py before anything is written.
"""

import collections
import os

import aba

ROOT = os.path.dirname(os.path.dirname(os.path.abspath(__file__)))

MAX_CENTS = 9_999_999_999
LAST_WORD = 18446744073709551615    # the largest 64-bit word
NOT_LINES = (                       # line numbers far past any end, two by two
    (9223372036854775809,           # with 64-bit wrapping this would be line 1
     9223372036854775810),          # and this line 2
    (151202820276307801,            # 122 times this passes 64 bits
     151202820276307802),           # its first byte's place passes 64 bits
    (151202625800209555, 151202625800209556),
)


# ----------------------------------------------------------- random numbers

class Dice:
    """A small random number generator, the same under every Python."""

    def __init__(self, seed):
        self.state = seed

    def below(self, limit):
        self.state = (self.state * 6364136223846793005 + 1442695040888963407) % 2**64
        return (self.state >> 20) % limit

    def between(self, low, high):
        return low + self.below(high - low + 1)

    def pick(self, choices):
        return choices[self.below(len(choices))]

    def once_in(self, times):
        return self.below(times) == 0


# --------------------------------------------------- making proper records

CRLF = b"\r\n"


def header(bank="BQL", user="RIDGE COACHES", number=301500, about="DRIVER PAY",
           date="290224"):
    line = (f"0{'':17}01{bank:<3}{'':7}{user:<26}{number:06}{about:<12}{date}{'':40}"
            .encode("latin-1"))
    assert len(line) == 120
    return line + CRLF


def detail(bsb="062-000", account="12345678", mark=" ", code="53", cents=125050,
           title="NGUYEN. Kim", reference="WEEK 09", trace="124-001",
           trace_account="77001234", remitter="RIDGE COACHES", tax=0):
    line = (f"1{bsb}{account:>9}{mark}{code}{cents:010}{title:<32}{reference:<18}"
            f"{trace}{trace_account:>9}{remitter:<16}{tax:08}".encode("latin-1"))
    assert len(line) == 120
    return line + CRLF


def trailer(net, credit, debit, count):
    line = f"7999-999{'':12}{net:010}{credit:010}{debit:010}{'':24}{count:06}{'':40}".encode()
    assert len(line) == 120
    return line + CRLF


def totals(details):
    """Net, credit, debit and count of detail lines."""
    debit = sum(int(d[20:30]) for d in details if d[18:20] == b"13")
    credit = sum(int(d[20:30]) for d in details if d[18:20] != b"13")
    return max(credit, debit) - min(credit, debit), credit, debit, len(details)


def trailer_for(details):
    return trailer(*totals(details))


def whole(head, details):
    return head + b"".join(details) + trailer_for(details)


def put(line, column, new):
    """The line with `new` standing from `column` on."""
    new = new.encode("latin-1") if isinstance(new, str) else bytes(new)
    return line[:column - 1] + new + line[column - 1 + len(new):]


HEAD = header()
CREDIT = detail()
DEBIT = detail("124-001", "77001234", " ", "13", 125050, "RIDGE COACHES")
TRAIL = trailer(0, 125050, 125050, 2)
SAMPLE = HEAD + CREDIT + DEBIT + TRAIL
ONE = trailer_for([CREDIT])         # the trailer of a file with CREDIT alone
assert len(SAMPLE) == 488


# ----------------------------------------------------------------- the cases

Case = collections.namedtuple("Case", "pieces records expect house")
PLAIN = (b"plain",)                 # the words that name the house of a case
CASES = []
ACCEPTED = "accepted"


def lines_to_ask(data):
    lines = -(-len(data) // 122)
    asked = list(range(lines + 3))
    if len(CASES) % 3 == 0:
        asked += NOT_LINES[len(CASES) // 3 % 3]
        asked.append(LAST_WORD)
    return asked


def add(data, expect=None, records=None, house=PLAIN):
    """A case of one file; `expect` is (number, line, column), for a house's no with
    the reason behind it, or ACCEPTED."""
    if records is None:
        records = lines_to_ask(data)
    if not data:
        pieces = []
    elif len(CASES) % 7 == 3 and len(data) > 20:        # sometimes cut up
        cut = 1 + (len(CASES) * 37) % (len(data) - 1)
        pieces = [(1, data[:cut]), (1, data[cut:])]
    else:
        pieces = [(1, data)]
    CASES.append(Case(pieces, records, expect, house))


def rest(lines=None):
    """The lines after the faulty one, which must not matter: in every third case."""
    return (ONE if lines is None else lines) if len(CASES) % 3 == 0 else b""


def add_pieces(pieces, expect, records, house=PLAIN):
    CASES.append(Case(pieces, records, expect, house))


# ---- proper files

def known():
    add(SAMPLE, ACCEPTED)
    add(b"", (1, 1, 1))
    add(b" " * 121, (1, 1, 122))
    add(HEAD + CREDIT + DEBIT + put(TRAIL, 31, "0000125051"), (18, 4, 31))
    add(header(date="290223") + CREDIT + DEBIT + TRAIL, (10, 1, 75))
    add(HEAD + detail(account="000000000") + DEBIT + TRAIL, (8, 2, 9))
    add(HEAD + detail(account="1 2345678") + DEBIT + TRAIL, (9, 2, 10))
    add(HEAD + detail(cents=0) + DEBIT + TRAIL, (8, 2, 21))
    add(whole(HEAD, [detail(cents=1)]), ACCEPTED)
    add(whole(HEAD, [detail(tax=1)]), (11, 2, 113))
    add(whole(HEAD, [detail(tax=1, mark="W")]), ACCEPTED)
    add(wages(), ACCEPTED)


def wages():
    """A bank's published example: eleven credits and the settling debit."""
    rows = [
        ("484-001", "32666591", 15800, "000005991"),
        ("124-101", "90988259", 7800, "000348383"),
        ("062-191", "12479074", 4600, "000407577"),
        ("084-014", "52496140", 21198, "000501403"),
        ("633-000", "18656046", 8600, "000553305"),
        ("014-012", "10306718", 44996, "001244797"),
        ("012-022", "60341161", 4350, "001691260"),
        ("064-147", "11609760", 24200, "002047942"),
        ("034-977", "100087549", 27800, "002086445"),
        ("082-013", "10517995", 64000, "002139012"),
        ("063-021", "00634226", 44444444, "000009549"),
    ]
    own = dict(trace="124-001", trace_account="234567890", remitter="WAGES Payment")
    details = [detail(bsb, account, " ", "50", cents, f"EMPLOYEE {place:02}", reference, **own)
               for place, (bsb, account, cents, reference) in enumerate(rows, 1)]
    details.append(detail("124-001", "234567890", " ", "13", 44667788, "Company Account",
                          "CONTRA WAGES", **own))
    return whole(header("BQL", "USER NAME", 123456, "WAGES", "300916"), details)


SET = ("0123456789ABCDEFGHIJKLMNOPQRSTUVWXYZabcdefghijklmnopqrstuvwxyz"
       "+-@$!%&()*./#=:;?,'[]_^ ")
MARKED = SET[:-1]                   # all but the blank
CODES = ["13", "50", "51", "52", "53", "54", "55", "56", "57"]
MONTHS = [31, 28, 31, 30, 31, 30, 31, 31, 30, 31, 30, 31]


def some_text(dice, width):
    length = dice.pick([1, 2, width, width, dice.between(1, width)])
    inner = "".join(dice.pick(SET) for _ in range(length))
    return (dice.pick(MARKED) + inner[1:])[:width].rstrip(" ")


def some_account(dice):
    length = dice.pick([1, 2, 8, 9, 9, dice.between(1, 9)])
    bytes_ = [dice.pick("00123456789-") for _ in range(length)]
    bytes_[dice.below(length)] = dice.pick("123456789")
    return "".join(bytes_)


def some_bsb(dice):
    number = dice.pick([0, 999999, dice.below(1000), dice.below(10**6), dice.below(10**6)])
    return f"{number // 1000:03}-{number % 1000:03}"


def some_date(dice):
    year, month = dice.below(100), dice.below(12)
    last = MONTHS[month] + (1 if month == 1 and year % 4 == 0 else 0)
    day = dice.pick([1, last, dice.between(1, last)])
    return f"{day:02}{month + 1:02}{year:02}"


def some_header(dice):
    return header(some_text(dice, 3), some_text(dice, 26),
                  dice.pick([0, 999999, dice.below(10**6)]), some_text(dice, 12),
                  some_date(dice))


def some_detail(dice, most=MAX_CENTS // 12):
    mark = dice.pick("  NWXY")
    tax = dice.pick([0, 1, 99999999, dice.below(10**8)]) if mark in "WXY" else 0
    return detail(some_bsb(dice), some_account(dice), mark, dice.pick(CODES),
                  dice.pick([1, most, dice.between(1, 99999), dice.between(1, most)]),
                  some_text(dice, 32), some_text(dice, 18), some_bsb(dice),
                  some_account(dice), some_text(dice, 16), tax)


def proper_files():
    dice = Dice(1)
    for n in range(25):
        details = [some_detail(dice) for _ in range(1 + n if n < 12 else dice.between(1, 6))]
        add(whole(some_header(dice), details), ACCEPTED)
    # every character as the whole of a text, or at both its ends
    add(whole(header("^ ^", "+" * 26, 0, ";" * 12),
              [detail(title=c, reference=c * 18, remitter=d + " " * 14 + d)
               for c, d in zip(MARKED[:43], MARKED[42:])]), ACCEPTED)
    add(whole(header("a", "b  c", 1, "'"), [detail(title="x" + SET[56:] + "x", reference=SET[18:36],
                                              remitter=SET[:16]),
              detail(title=SET[16:48], reference=SET[44:62], remitter=SET[70:-1])]), ACCEPTED)
    # each code alone, with the largest cents
    for code in CODES:
        add(whole(HEAD, [detail(code=code, cents=MAX_CENTS)]), ACCEPTED)
    # extremes
    add(whole(HEAD, [detail(cents=MAX_CENTS), detail(code="13", cents=MAX_CENTS)]), ACCEPTED)
    add(whole(HEAD, [detail(cents=MAX_CENTS - 1), detail(cents=1)]), ACCEPTED)
    add(whole(HEAD, [detail(code="13", cents=7), detail(code="54", cents=5)]), ACCEPTED)
    add(whole(header(number=0), [detail("000-000", "1", "Y", "57", 1, "T", "R", "999-999", "9", "S",
                                        99999999)]), ACCEPTED)
    # many like details
    many = detail(cents=9999)
    for times in (7, 100, 535, 536, 5000):
        add_pieces([(1, HEAD), (times, many), (1, trailer(9999 * times, 9999 * times, 0, times))],
                   ACCEPTED, [0, 1, 2, times, times + 1, times + 2, times + 3, times + 4])
    add_pieces([(1, HEAD), (30, CREDIT + DEBIT), (1, trailer(0, 30 * 125050, 30 * 125050, 60))],
               ACCEPTED, [1, 2, 3, 60, 61, 62, 63, 64])


# ---- every column spoilt

def columns_of(record):
    """What each column admits: a set of bytes, by column."""
    digit, text, mark = set(b"0123456789"), set(SET.encode()), set(b" NWXY")
    account = set(b"0123456789- ")

    def spell(*parts):
        found = [None]
        for what, width in parts:
            found += [what] * width
        assert len(found) == 121
        return found
    blank, hyphen = set(b" "), set(b"-")
    bsb = [(digit, 3), (hyphen, 1), (digit, 3)]
    if record == "header":
        return spell((set(b"0"), 1), (blank, 17), (set(b"0"), 1), (set(b"1"), 1), (text, 3),
                     (blank, 7), (text, 26), (digit, 6), (text, 12), (digit, 6), (blank, 40))
    if record == "detail":
        return spell((set(b"1"), 1), *bsb, (account, 9), (mark, 1), (digit, 2), (digit, 10),
                     (text, 32), (text, 18), *bsb, (account, 9), (text, 16), (digit, 8))
    return spell((set(b"7"), 1), (set(b"9"), 3), (hyphen, 1), (set(b"9"), 3), (blank, 12),
                 (digit, 30), (blank, 24), (digit, 6), (blank, 40))


class Spoiler:
    """Hands out bytes not admitted, the more telling ones first, none twice
    for the same kind of column until all have had their turn."""

    FIRST = (list(b"\x00\n\r\x1f\x7f\x80\xff\t") + list(b'"<>\\`{|}~') + list(b"Aa/: -Oz0_nw1@[*")
             + [160, 176, 208, 224, 1, 26, 129, 254])

    def __init__(self):
        self.left = {}

    def byte(self, admitted):
        key = frozenset(admitted)
        left = self.left.get(key)
        if not left:
            order = self.FIRST + [b for b in range(256) if b not in self.FIRST]
            left = self.left[key] = [b for b in order if b not in admitted]
        return left.pop(0)

    def unused(self, admitted, most):
        """What has not had its turn yet."""
        left = self.left.get(frozenset(admitted), [])
        return left[:most]


def spoilt_columns():
    spoiler = Spoiler()
    heads, bodies, tails = columns_of("header"), columns_of("detail"), columns_of("trailer")

    def spoil(line, column, admitted):
        return put(line, column, [spoiler.byte(admitted[column])])

    def inner(admitted, column):
        """Well inside a run of like columns: these need not all have a case of their own."""
        return (column % 3 != 0 and 2 < column < 119
                and all(admitted[column + step] == admitted[column] for step in (-2, -1, 1, 2)))

    for column in range(2, 121):
        head = spoil(HEAD, column, heads)
        if column % 3:
            add(head, (7, 1, column))
        else:                       # faults further down must not matter
            other = 2 + (column * 7) % 119
            add(head + spoil(CREDIT, other, bodies) + spoil(ONE, 122 - other, tails),
                (7, 1, column))
    for admitted, line in ((bodies, CREDIT), (tails, ONE)):
        start = HEAD if line == CREDIT else HEAD + CREDIT
        spare = []
        for column in range(2, 121):
            if inner(admitted, column):
                spare.append(column)
            else:
                add(start + spoil(line, column, admitted), (7, len(start) // 122 + 1, column))
        add(start + b"".join(spoil(line, column, admitted) for column in spare),
            (7, len(start) // 122 + 1, spare[0]))

    # column 1
    for byte in b"17 O\x00\xb0":
        add(put(HEAD, 1, [byte]) + CREDIT + ONE, (3, 1, 1))
    for byte in b"02 68l\xb1":
        add(HEAD + put(CREDIT, 1, [byte]) + rest(CREDIT + ONE), (3, 2, 1))
    for byte in b"09/\xf7":
        add(HEAD + CREDIT + put(ONE, 1, [byte]), (3, 3, 1))
    add(HEAD + CREDIT + put(ONE, 1, "1"), (8, 3, 9))        # a trailer read as a detail
    add(HEAD + put(CREDIT, 1, "7") + rest(), (7, 2, 2))     # a detail read as a trailer

    # bytes that have not had their turn (for texts all of them), one to a line
    def sweep(admitted, most, line, columns):
        left = spoiler.unused(admitted, most)
        lines = [put(line, columns[n % len(columns)], [byte]) for n, byte in enumerate(left)]
        if lines:
            add(HEAD + b"".join(lines), (7, 2, columns[0]))

    sweep(bodies[31], 256, CREDIT, [31, 62, 63, 80, 97, 112, 45])
    sweep(bodies[21], 50, CREDIT, [21, 30, 2, 8, 19, 20, 81, 87, 113, 120])
    sweep(bodies[9], 60, CREDIT, [9, 17, 12, 88, 96])
    sweep(bodies[18], 50, CREDIT, [18])
    sweep(bodies[5], 30, CREDIT, [5, 84])
    sweep(tails[9], 36, ONE, [9, 20, 51, 74, 81, 120])

    # two bytes spoilt in one field: the left one counts
    for line, body, left, right in [(1, HEAD, 31, 56), (1, HEAD, 57, 62), (1, HEAD, 2, 18)]:
        add(put(put(body, left, "~"), right, "\x01") + CREDIT + ONE, (7, line, left))
    for left, right in [(2, 5), (5, 8), (9, 10), (19, 20), (22, 29), (40, 41), (79, 80), (81, 84),
                        (88, 96), (100, 111), (113, 120)]:
        add(HEAD + put(put(CREDIT, left, "~"), right, "\x01") + rest(), (7, 2, left))


# ---- lines and structure

def spoilt_lines():
    for length in (1, 2, 119, 120, 121, 122, 123, 243, 244, 245, 365, 366, 367, 485, 486, 487):
        add(SAMPLE[:length], (1, length // 122 + 1, length % 122 + 1))
    long = wages()
    for length in (len(long) - 1, len(long) - 2, len(long) - 122, 122 * 7 + 60):
        add(long[:length], (1, length // 122 + 1, length % 122 + 1))
    for number in range(1, 5):
        for end, column in [(b" \n", 121), (b"\r\r", 122), (b"\n\r", 121), (b"\r\x00", 122)]:
            place = 122 * number
            add(SAMPLE[:place - 2] + end + SAMPLE[place:], (2, number, column))
    records = [SAMPLE[place:place + 120] for place in range(0, 488, 122)]
    add(b"".join(r + b"\n" for r in records), (2, 1, 121))
    add(b"".join(r + b"\r" for r in records), (2, 1, 122))
    add(b"".join(records), (2, 1, 121))
    add(b"".join(r + b"\r\n\r\n" for r in records), (2, 2, 121))
    add(CRLF.join(records), (1, 4, 121))
    add(CRLF.join(r.rstrip(b" ") for r in records), (2, 1, 121))
    add(b"\xef\xbb\xbf" + SAMPLE, (2, 1, 121))
    add(HEAD + CREDIT[1:] + DEBIT + TRAIL, (2, 2, 121))
    add(HEAD + CREDIT[:60] + b" " + CREDIT[60:] + DEBIT + TRAIL, (2, 2, 121))
    add(SAMPLE[:120], (1, 1, 121))
    add(b" " * 122, (2, 1, 121))
    add(b" " * 120 + CRLF, (3, 1, 1))
    add(b"0" + b" " * 119 + CRLF, (7, 1, 19))
    add(b"\r\n" * 61, (3, 1, 1))
    add(b"\x00" * 488, (2, 1, 121))
    add(b"0" * 121, (1, 1, 122))
    add(b"\n", (1, 1, 2))


def structure():
    add(HEAD, (1, 2, 1))
    add(CREDIT + ONE, (3, 1, 1))
    add(TRAIL, (3, 1, 1))
    add(HEAD + trailer(0, 0, 0, 0), (17, 2, 1))
    add(HEAD + TRAIL, (17, 2, 1))
    add(HEAD + trailer(1, 2, 3, 4) + CREDIT, (17, 2, 1))
    add(HEAD + put(trailer(0, 0, 0, 0), 5, "9"), (7, 2, 5))
    add(HEAD + put(trailer(0, 0, 0, 0), 120, "x") + b"x", (7, 2, 120))
    add(HEAD + trailer(0, 0, 0, 0) + b"more", (17, 2, 1))
    add(HEAD + HEAD + CREDIT + ONE, (3, 2, 1))
    add(HEAD + CREDIT + HEAD + ONE, (3, 3, 1))
    add(HEAD + CREDIT + DEBIT + HEAD, (3, 4, 1))
    add(HEAD + CREDIT + DEBIT, (1, 4, 1))
    add(HEAD + CREDIT + DEBIT + TRAIL[:1], (1, 4, 2))
    add(CREDIT + HEAD + ONE, (3, 1, 1))
    add(TRAIL + CREDIT + DEBIT + HEAD, (3, 1, 1))
    add(HEAD + ONE + CREDIT, (17, 2, 1))
    add(HEAD + CREDIT + ONE + DEBIT + TRAIL, (20, 4, 1))
    add(HEAD + DEBIT + CREDIT + TRAIL, ACCEPTED)
    # after the trailer
    for more in (TRAIL, HEAD, CREDIT, SAMPLE, b"\x00", b" ", b"\n", CRLF, b"\x1a", TRAIL[:121],
                 b" " * 122, b"\xff" * 300):
        add(SAMPLE + more, (20, 5, 1))
    add(wages() + b"\r", (20, 15, 1))


def most_details():
    cent = detail(cents=1, code="50")
    ask = [0, 1, 2, 1000001, 1000002, 1000003, LAST_WORD]
    end = trailer(999999, 999999, 0, 999999)
    add_pieces([(1, HEAD), (999999, cent), (1, end)], ACCEPTED, ask)
    add_pieces([(1, HEAD), (1000000, cent), (1, end)], (4, 1000001, 1), ask)
    add_pieces([(1, HEAD), (999999, cent), (1, put(cent, 2, "x")), (1, end)], (4, 1000001, 1), ask)


# ---- totals

def spoilt_totals():
    columns = (21, 31, 41, 75)
    details = [CREDIT, detail(code="13", cents=5050)]
    right = totals(details)
    start = HEAD + b"".join(details)
    for wrong in range(1, 16):
        values = [value + 1 if wrong >> place & 1 else value for place, value in enumerate(right)]
        first = next(columns[place] for place in range(4) if wrong >> place & 1)
        add(start + trailer(*values), (18, 4, first))
    for place in range(4):
        values = list(right)
        values[place] = max(0, values[place] - 1)
        add(start + trailer(*values), (18, 4, columns[place]))
    net, credit, debit, count = right
    add(start + trailer(net, debit, credit, count), (18, 4, 31))
    add(start + trailer(0, credit, debit, count), (18, 4, 21))
    add(start + trailer(credit + debit, credit, debit, count), (18, 4, 21))
    add(start + trailer(net, credit, debit, count + 2), (18, 4, 75))
    add(start + trailer(net, credit, debit, 999999), (18, 4, 75))
    add(start + trailer(0, 0, 0, 0), (18, 4, 21))
    # net in the wrong direction, as a complement
    more_debit = [detail(cents=1), detail(code="13", cents=3)]
    add(HEAD + b"".join(more_debit) + trailer(10**10 - 2, 1, 3, 2), (18, 4, 21))
    add(HEAD + b"".join(more_debit) + trailer(2, 1, 3, 2), ACCEPTED)
    # only code 13 is a debit
    for code in ("50", "53", "57"):
        body = detail(code=code, cents=77)
        add(HEAD + body + trailer(77, 0, 77, 1), (18, 3, 31))
    add(HEAD + detail(code="13", cents=77) + trailer(77, 77, 0, 1), (18, 3, 31))
    # tax is no part of the totals
    taxed = detail(mark="X", tax=500, cents=1000)
    add(HEAD + taxed + trailer(1500, 1500, 0, 1), (18, 3, 21))
    add(HEAD + taxed + trailer(1000, 1500, 0, 1), (18, 3, 31))
    # sides above ten digits
    big, back = detail(cents=MAX_CENTS), detail(code="13", cents=MAX_CENTS)
    top, cut = MAX_CENTS, 2 * MAX_CENTS % 10**10
    add(HEAD + big * 2 + trailer(cut, cut, 0, 2), (18, 4, 21))
    add(HEAD + big * 2 + trailer(top, top, 0, 2), (18, 4, 21))
    add(HEAD + back * 2 + trailer(cut, 0, cut, 2), (18, 4, 21))
    add(HEAD + (big + back) * 2 + trailer(0, cut, cut, 4), (18, 6, 31))
    add(HEAD + (big + back) * 2 + trailer(0, top, top, 4), (18, 6, 31))
    add(HEAD + big * 2 + back + trailer(top, cut, top, 3), (18, 5, 31))
    add(HEAD + big + back * 2 + trailer(top, top, cut, 3), (18, 5, 41))
    half = detail(cents=5 * 10**9)
    add(HEAD + half * 2 + trailer(0, 0, 0, 2), (18, 4, 21))
    add(HEAD + detail(cents=2**32 + 1) + trailer(1, 1, 0, 1), (18, 3, 21))
    add(HEAD + detail(cents=2**31) * 2 + trailer(2**32, 2**32, 0, 2), ACCEPTED)
    add_pieces([(1, HEAD), (1000, big), (1, trailer(top, top, 0, 1000))], (18, 1002, 21),
               [0, 1, 2, 1001, 1002, 1003, 1004])
    add_pieces([(1, HEAD), (300, big + back), (1, trailer(0, 0, 0, 600))], (18, 602, 31),
               [0, 1, 2, 601, 602, 603, 604])


# ---- fields

def dates():
    good = ["010100", "311299", "290200", "290204", "290296", "290252", "280223", "280201",
            "300424", "310324"]
    good += [f"{MONTHS[month]:02}{month + 1:02}{month * 9:02}" for month in (4, 5, 6, 7, 8, 9, 10)]
    bad = ["290223", "310424", "000124", "010024", "011324", "320124", "290201", "290202",
           "290203", "290299", "290250", "290298", "300224", "300200", "000000", "999999",
           "202402", "012024", "450724"]
    bad += [f"{MONTHS[month] + 1:02}{month + 1:02}{2 * month + 1:02}" for month in range(12)]
    for n, date in enumerate(good):
        add(whole(header(date=date), [CREDIT]) if n % 2 else whole(header(date=date), [DEBIT]),
            ACCEPTED)
    for n, date in enumerate(bad):
        add(header(date=date) if n % 3 else header(date=date) + rest(CREDIT + ONE), (10, 1, 75))
    for date, column in [("2902 4", 79), (" 10124", 75), ("3a0223", 76), ("01/124", 77),
                         ("99999O", 80), ("      ", 75)]:
        add(header(date=date) + rest(CREDIT + ONE), (7, 1, column))


def accounts():
    """Each at column 9 or 88, by turns, and then the other way round a line below."""
    good = ["1", "000000001", "-1", "1-", "1--------", "--------9", "00-1234", "123456789",
            "0-0-0-0-1", "987654321", "100000000", "-00000-5-"]
    for n in range(0, len(good), 3):
        add(whole(HEAD, [detail(account=account, trace_account=good[-1 - n])
                         for account in good[n:n + 3]]), ACCEPTED)
    bad = [("         ", 8, 0), ("000000000", 8, 0), ("        0", 8, 0), ("---------", 8, 0),
           ("        -", 8, 0), ("0-0-0-0-0", 8, 0), ("0 0 0 0 0", 8, 0), ("0        ", 8, 0),
           (" -0-     ", 8, 0), ("1        ", 9, 1), ("12345678 ", 9, 8), ("1 2345678", 9, 1),
           (" 1 234567", 9, 2), ("   12 3 4", 9, 5), ("1  345678", 9, 1), ("- 1234567", 9, 1),
           ("0      01", 9, 1), ("       1 ", 9, 8), ("12345 789", 9, 5), ("1234+6789", 7, 4),
           ("12 4567x9", 7, 7), ("000000.00", 7, 6), ("        \t", 7, 8), ("A12345678", 7, 0),
           ("1234567/8", 7, 7), ("12345678:", 7, 8), ("_        ", 7, 0)]
    for n, (account, number, place) in enumerate(bad):
        first, second = detail(account=account), detail(trace_account=account)
        if n % 2:
            add(HEAD + first + second + TRAIL, (number, 2, 9 + place))
        else:
            add(HEAD + second + first + TRAIL, (number, 2, 88 + place))
        if n in (0, 1, 9, 11):
            both = detail(account=account, trace_account=account)
            add(HEAD + both + rest(), (number, 2, 9 + place))


def texts():
    fields = [(1, 21, 3), (1, 31, 26), (1, 63, 12), (2, 31, 32), (2, 63, 18), (2, 97, 16)]
    for line, first, width in fields:
        def spoil(text):
            head = put(HEAD, first, text) if line == 1 else HEAD
            body = put(CREDIT, first, text) if line == 2 else CREDIT
            return head + body + ONE
        add(spoil(" " * width), (8, line, first))
        add(spoil(" " + "A" * (width - 1)), (9, line, first))
        add(spoil(" " * (width - 1) + "z"), (9, line, first))
        add(spoil(" " * (width - 1) + "~"), (7, line, first + width - 1))
        add(spoil(" " * (width - 2) + "|" + " "), (7, line, first + width - 2))
        add(spoil("." + " " * (width - 2) + "." if first != 63 else "Z" * width), ACCEPTED)


def taxes_codes_cents():
    for tax in (1, 99999999):
        for mark in " NWXY":
            add(whole(HEAD, [detail(mark=mark, tax=tax)]),
                ACCEPTED if mark in "WXY" else (11, 2, 113))
    for mark in "NWXY":
        add(whole(HEAD, [detail(mark=mark)]), ACCEPTED)
    for mark in "nwVZ0\x00":
        add(HEAD + detail(mark=mark, tax=1) + rest(), (7, 2, 18))
    add(HEAD + put(CREDIT, 113, "0000000 ") + rest(), (7, 2, 120))
    add(HEAD + put(CREDIT, 113, "        ") + rest(), (7, 2, 113))
    for code in ("00", "12", "14", "49", "58", "99", "05", "31", "35", "75", "23", "60"):
        add(HEAD + detail(code=code) + rest(), (10, 2, 19))
    for code, place in [("5 ", 1), (" 5", 0), ("1E", 1), ("-1", 0), ("5:", 1), ("/3", 0)]:
        add(HEAD + detail(code=code) + rest(), (7, 2, 19 + place))
    # all hundred codes, one to a line
    add(HEAD + b"".join(detail(code=f"{code:02}") for code in range(100)), (10, 2, 19))
    add(HEAD + CREDIT + detail(cents=0, code="13") + ONE, (8, 3, 21))
    for cents, place in [("00000000 1", 8), ("         1", 0), ("-000000001", 0), ("000000.001", 6),
                         ("O000000000", 0), ("+000000000", 0)]:
        add(HEAD + put(CREDIT, 21, cents) + rest(), (7, 2, 21 + place))
    for bsb, place in [("0620-00", 3), ("062000-", 3), ("062 000", 3), ("-62-000", 0),
                       ("06 -000", 2), ("062-00-", 6), ("       ", 0)]:
        add(HEAD + detail(bsb=bsb) + rest(), (7, 2, 2 + place))
        add(HEAD + detail(trace=bsb) + rest(), (7, 2, 81 + place))
    for number, place in [("30150 ", 5), (" 30150", 0), ("3O1500", 1)]:
        add(put(HEAD, 57, number) + rest(CREDIT + ONE), (7, 1, 57 + place))
    add(put(HEAD, 19, "02") + rest(CREDIT + ONE), (7, 1, 20))
    add(put(HEAD, 19, "10") + rest(CREDIT + ONE), (7, 1, 19))
    add(put(HEAD, 19, "  ") + rest(CREDIT + ONE), (7, 1, 19))


# ---- two faults at once

def two_faults():
    # what is done to a detail: number, column, first column of the change, new bytes
    harms = [(2, 121, 121, "\n\r"), (3, 1, 1, "4"), (7, 5, 5, "/"), (8, 9, 9, "     0000"),
             (10, 19, 19, "58"), (7, 40, 40, "\x80"), (9, 63, 63, " "), (8, 97, 97, " " * 16),
             (11, 113, 113, "00000012")]

    def turn(harm):                 # 2, 3, then the fields by column, then 11
        return {2: 0, 3: 1, 11: 200}.get(harm[0], harm[1])

    for i, one in enumerate(harms):
        for two in harms[i + 1:]:
            number, column = min((one, two), key=turn)[:2]
            both = put(put(CREDIT, one[2], one[3]), two[2], two[3])
            add(HEAD + both + rest(), (number, 2, column))
    # the smaller number stands a line lower: the earlier line counts
    for i, one in enumerate(harms):
        for two in harms[i + 1:]:
            late, early = sorted((one, two), key=lambda harm: (harm[0], turn(harm)))
            if early[0] > late[0] and (i + early[1]) % 3:
                add(HEAD + put(CREDIT, early[2], early[3]) + put(DEBIT, late[2], late[3]),
                    (early[0], 2, early[1]))

    # two faults within one field: the smaller number
    add(HEAD + detail(account="0 0     x") + rest(), (7, 2, 17))
    add(HEAD + detail(account="00 000 00") + rest(), (8, 2, 9))
    add(HEAD + detail(account="1 2 3 4 5") + rest(), (9, 2, 10))
    # header and detail
    for head, fault in [(put(HEAD, 120, "x"), (7, 1, 120)), (header(bank=" A "), (9, 1, 21)),
                        (header(about=""), (8, 1, 63)), (header(date="310624"), (10, 1, 75)),
                        (put(HEAD, 122, "x"), (2, 1, 122))]:
        for body in (put(CREDIT, 1, "x"), put(CREDIT, 121, "x"), CREDIT[:50]):
            add(head + body, fault)
    add(put(header(date="310624"), 63, " ") + rest(CREDIT + ONE), (9, 1, 63))
    add(put(header(bank="", date="310624"), 24, "x") + rest(CREDIT + ONE), (8, 1, 21))
    # detail and file
    add(HEAD + detail(tax=1) + trailer(0, 0, 0, 0), (11, 2, 113))
    add(HEAD + detail(code="99") + trailer(0, 0, 0, 0), (10, 2, 19))
    add(HEAD + detail(tax=1) + ONE + b"x", (11, 2, 113))
    add(HEAD + detail(tax=1), (11, 2, 113))
    add(HEAD + CREDIT + detail(tax=1) + b"7", (11, 3, 113))
    add(HEAD + CREDIT + put(CREDIT, 2, "x")[:121], (1, 3, 122))
    add(HEAD + put(CREDIT, 122, "x") + CREDIT[:121], (2, 2, 122))
    # at the trailer
    bad = trailer(1, 1, 1, 1)
    add(HEAD + CREDIT + put(bad, 80, "x"), (7, 3, 80))
    add(HEAD + CREDIT + put(bad, 120, "x"), (7, 3, 120))
    add(HEAD + CREDIT + put(bad, 122, "x"), (2, 3, 122))
    add(HEAD + CREDIT + put(bad, 1, "8"), (3, 3, 1))
    add(HEAD + CREDIT + bad[:121], (1, 3, 122))
    add(HEAD + CREDIT + bad + b"x", (18, 3, 21))
    add(HEAD + CREDIT + put(ONE, 75, "000002") + ONE, (18, 3, 75))
    add(HEAD + bad + b"x", (17, 2, 1))
    add(HEAD + put(bad, 9, "x"), (7, 2, 9))
    add(HEAD + put(bad, 121, "x"), (2, 2, 121))
    add(HEAD + CREDIT + put(ONE, 120, "x") + b"x", (7, 3, 120))


# ---- files with random damage, judged by second/aba.py alone

def damaged():
    dice = Dice(2)
    for _ in range(36):
        details = [some_detail(dice) for _ in range(dice.between(1, 4))]
        data = whole(some_header(dice), details)
        for _ in range(dice.pick([1, 1, 2, 3])):
            place = dice.below(len(data))
            what = dice.below(8)
            if what < 3:            # any byte anywhere
                data = data[:place] + bytes([dice.below(256)]) + data[place + 1:]
            elif what < 5:          # a character of the set anywhere
                data = data[:place] + dice.pick(SET).encode() + data[place + 1:]
            elif what < 6:          # another digit in the cents of a line
                place = 122 * dice.below(len(data) // 122) + 20 + dice.below(10)
                data = data[:place] + dice.pick("0123456789").encode() + data[place + 1:]
            elif what < 7:          # two lines change places
                lines = [data[k:k + 122] for k in range(0, len(data), 122)]
                one, two = dice.below(len(lines)), dice.below(len(lines))
                lines[one], lines[two] = lines[two], lines[one]
                data = b"".join(lines)
            else:                   # bytes go missing
                data = data[:place] + data[place + dice.pick([1, 2, 120, 122]):]
        add(data)
    for length in (5, 122, 366, 700):
        add(bytes(dice.below(256) for _ in range(length)))


# ------------------------------------------------------------------ writing

def shown_tally(summary):
    rows = b" ".join(b"%d:%d:%d" % (code, summary.counts[code], summary.cents[code])
                     for code in aba.CODES)
    last = summary.last
    return b"tally %s last %s %s %d" % (rows, aba.shown_bsb(last.bsb), last.account, last.code)


def check(place, case, answer):
    if case.expect is None:
        return
    if case.expect == ACCEPTED:
        right = isinstance(answer, aba.Summary)
    else:
        right = answer == aba.Fault(*case.expect)
    if not right:
        raise SystemExit(f"case {place}: expected {case.expect}, but: {answer}")


def gather():
    """All cases under the plain house."""
    known()
    proper_files()
    spoilt_lines()
    structure()
    spoilt_totals()
    dates()
    accounts()
    texts()
    taxes_codes_cents()
    two_faults()
    spoilt_columns()
    damaged()
    most_details()


def kind_of(answer):
    """What an answer counts as in the summary that is printed in the end."""
    if not isinstance(answer, aba.Fault):
        return ACCEPTED if isinstance(answer, aba.Summary) else type(answer).__name__
    return f"{answer.number}" + (f" reason {answer.reason}" if answer.reason else "")


def stored():
    """CASES as stored: the cases, their answers, and how often each kind of answer
    occurs, by the call that gave it."""
    cases, answers = [], []
    counters = collections.defaultdict(collections.Counter)
    for place, case in enumerate(CASES, 1):
        cases.append(b"case %s\n" % b" ".join(case.house))
        for times, raw in case.pieces:
            cases.append(b"piece %d %d\n%s\n" % (times, len(raw), raw))
        cases.append(b" ".join([b"records"] + [b"%d" % n for n in case.records]) + b"\n")

        house = aba.house_of(case.house)
        if isinstance(house, aba.Fault):
            check(place, case, house)
            counters[case.house[0].decode() + " made"][kind_of(house)] += 1
            answers.append(b"case %d\nhouse %s\n" % (place, str(house).encode()))
            continue
        data = b"".join(raw * times for times, raw in case.pieces)
        answer = aba.read(data, house)
        check(place, case, answer)
        counters[case.house[0].decode() + " read"][kind_of(answer)] += 1
        answers.append(b"case %d\n%s\n" % (place, str(answer).encode()))
        if isinstance(answer, aba.Summary):
            answers.append(shown_tally(answer) + b"\n")
        for number in case.records:
            one = aba.record(data, number)
            counters["record"][kind_of(one)] += 1
            answers.append(b"%d: %s\n" % (number, aba.shown(one)))
    return b"".join(cases), b"".join(answers), counters


def write(root, files, counters):
    for name, content in files.items():
        path = os.path.join(root, name)
        os.makedirs(os.path.dirname(path), exist_ok=True)
        with open(path, "wb") as out:
            out.write(content)
        print(f"{name}: {len(content)} bytes")
    print(f"{len(CASES)} cases")
    for what in sorted(counters):
        counter = counters[what]
        print(what + ": " + ", ".join(f"{key} {counter[key]}" for key in sorted(
            counter, key=lambda key: [int(part) if part.isdigit() else 99 for part in key.split()])))


def main():
    gather()
    cases, answers, counters = stored()
    write(ROOT, {
        "crates/vectors/stdin": cases,
        "crates/vectors/stdout": answers,
        "crates/show/stdin": SAMPLE,
        "crates/show/stdout": aba.show(SAMPLE).encode(),
    }, counters)


if __name__ == "__main__":
    main()
