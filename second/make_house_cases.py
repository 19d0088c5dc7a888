"""Makes the stored cases under all three houses, and the stored run of `inspect`.

How to run it, from the repository root, with the directory to write into, as in

    python3 second/make_house_cases.py crates

It writes five files, always with the same bytes, and takes a few seconds:

    vectors/stdin     all cases of make_cases.py, then those under other houses
    vectors/stdout    the answers of second/aba.py to them
    inspect/stdin     a bank's published example file
    inspect/args      the words after `inspect` on the command line, one to a line
    inspect/stdout    what `inspect` prints for it

The format of the cases is that of make_cases.py, with the words of the house in
the first line, separated by one blank:

    case listed 6=CBA 12=BQL
    case balanced 124001 77001234

So no word has a blank in it here.  Where the house cannot be made, the answer
to the case is one line and nothing more:

    case K
    house refused 6 field line=0 column=2
"""

import sys

import aba
import make_cases
from make_cases import (ACCEPTED, CASES, CREDIT, DEBIT, HEAD, MAX_CENTS, SAMPLE, SET, TRAIL, Dice,
                        add_pieces, detail, header, put, some_account, some_bsb, some_detail,
                        some_header, some_text, totals, trailer, trailer_for, wages, whole)


def words(house):
    return tuple(house.encode("latin-1").split(b" "))


def add(house, data, expect=None):
    """A case of one file.  Every fifth also puts all lines to `record`, which asks no house."""
    asked = list(range(len(data) // 122 + 2)) if len(CASES) % 5 == 0 else []
    make_cases.add(data, expect, asked, words(house))


def rest(lines):
    """The lines after the faulty one, which must not matter: in every third case."""
    return lines if len(CASES) % 3 == 0 else b""


BANKS = "listed 6=CBA 12=BQL"                   # the banks of SAMPLE
ALL_BANKS = "listed 1=ANZ 3=WBC 6=CBA 8=NAB 12=BQL 48=MET 63=BBL"     # those of wages()
SETTLING = "balanced 124001 77001234"           # settled by DEBIT


def known():
    add("balanced 124001 234567890", wages(), ACCEPTED)
    add(ALL_BANKS, wages(), ACCEPTED)
    add(SETTLING, SAMPLE, ACCEPTED)
    add(BANKS, SAMPLE, ACCEPTED)
    add(SETTLING, HEAD + detail(code="51") + DEBIT + TRAIL, (12, 2, 19, 2))
    three = [CREDIT, detail(cents=1), DEBIT]
    add(SETTLING, whole(HEAD, three), (19, 5, 1, 4))
    add(BANKS, whole(HEAD, three), ACCEPTED)
    # the example settled otherwise, and with one bank missing from the list
    add("balanced 124001 234567891", wages(), (19, 14, 1, 5))
    add("listed 1=ANZ 3=WBC 6=CBA 8=NAB 12=BQL 48=MET", wages(), (12, 6, 2, 2))
    add("listed 1=ANZ 3=WBC 6=CBA 8=NAB 48=BQL 63=BBL", wages(), (12, 2, 81, 2))


# ---- making a bank list

def full_list(last=""):
    """A hundred lines, and perhaps one more."""
    lines = " ".join(f"{number}=B{number:02}" for number in range(100))
    return f"listed {lines} {last}".rstrip()


def bank_lines():
    refused = [
        # the number is too wide
        ("100=BQL", 6, 2), ("268=BQL", 6, 2), ("4294967308=BQL", 6, 2),
        ("18446744073709551615=BQL", 6, 2), ("6=CBA 112=BQL", 6, 2),
        # the name is too wide
        ("12=BQLX", 6, 21), ("6=CBA 12=" + "A" * 259, 6, 21), ("12=BQL=", 6, 21), ("12=~~~~", 6, 21),
        # the name has a byte outside the set
        ("12=~", 7, 21), ("12=B~L", 7, 22), ("12=BQ\"", 7, 23),
        ("12=\x80QL", 7, 21), ("6=CBA 12=BQ\xff", 7, 23),
        # the name is empty
        ("12=", 8, 21), ("6= 12=BQL", 8, 21),
        # the number comes before the name
        ("100=", 6, 2), ("112=~", 6, 2),
        # the number is not above the last one
        ("12=BQL 12=BQL", 13, 0), ("12=BQL 6=CBA", 13, 0), ("0=A 0=B", 13, 0),
        ("5=A 12=B 6=C", 13, 0), ("12=BQL 012=CBA 13=NAB", 13, 0),
        # both fields come before 13, and an earlier line before a later one
        ("12=BQL 11=BQLX", 6, 21), ("12=BQL 12=B~", 7, 22),
        ("12=BQL 6=", 8, 21), ("12=A 11=B 100=C", 13, 0), ("12=A 100=B 11=C", 6, 2),
    ]
    files = [b"", SAMPLE, HEAD, b""]
    for place, (lines, number, column) in enumerate(refused):
        add("listed " + lines, files[place % 4], (number, 0, column))
    # a full list; behind it every number is refused before the room is
    add(full_list(), whole(header("B07"), [CREDIT, DEBIT]), ACCEPTED)
    for last, number, column in [("99=B99", 13, 0), ("100=ABC", 6, 2), ("99=A~", 7, 22)]:
        add(full_list(last), b"", (number, 0, column))


# ---- the listed house

def listed_names():
    add("listed", SAMPLE, (12, 1, 21, 1))
    add("listed", b"", (1, 1, 1))
    add("listed", header(date="310424") + CREDIT + DEBIT + TRAIL, (10, 1, 75))
    names = [       # of the header, of the list, and whether it is listed
        ("BQL", "6=CBA 12=bql", False), ("BQL", "6=B 7=BQ 12=QL", False),
        ("BQ", "6=CBA 12=BQL", False), ("B L", "6=B 12=B-L", False), ("BXL", "6=CBA 12=BQL", False),
        ("B", "6=BB 7=B 12=BBB", True), ("BQL", "6=BQL 12=CBA", True),
        ("BQL", "6=BQL 12=BQL", True), ("BQL", "0=BQL 6=A 12=B 99=C", True),
        ("BQL", "0=C 6=A 12=B 99=BQL", True), ("A=B", "6=CBA 12=A=B", True), ("=", "6=CBA 12==", True),
        ("12", "6=06 12=12", True),
    ]
    for name, lines, known in names:
        if known:
            add("listed " + lines, whole(header(name), [CREDIT, DEBIT]), ACCEPTED)
        else:
            add("listed " + lines, header(name) + rest(CREDIT + DEBIT + TRAIL), (12, 1, 21, 1))


def listed_numbers():
    """Each branch as the BSB, as the trace BSB or as both."""
    inside = ["060-000", "069-999", "062-345", "120-000", "129-999", "124-001"]
    add(BANKS, whole(HEAD, [detail(bsb=one, trace=two)
                            for one in inside for two in inside[::2]]), ACCEPTED)
    outside = ["059-999", "070-000", "119-999", "130-000", "012-000", "006-012", "612-000",
               "106-000"]
    for place, bsb in enumerate(outside):
        first = detail(bsb=bsb, trace=bsb if place % 3 else "124-001")
        second = detail(trace=bsb)
        if place % 2:
            add(BANKS, HEAD + first + second + TRAIL, (12, 2, 2, 2))
        else:
            add(BANKS, HEAD + second + first + TRAIL, (12, 2, 81, 2))
    # the ends of the numbers
    ends = "listed 0=BQL 99=XYZ"
    add(ends, whole(HEAD, [detail(bsb=one, trace=two) for one, two in [
        ("000-000", "999-999"), ("009-999", "990-000"), ("990-000", "000-000")]]), ACCEPTED)
    add(ends, whole(HEAD, [detail("009-999", trace="010-000")]), (12, 2, 81, 2))
    add(ends, whole(HEAD, [detail("989-999", trace="000-000")]), (12, 2, 2, 2))
    # a number in two digits, with and without its zero
    add("listed 06=CBA 012=BQL", SAMPLE, ACCEPTED)
    add("listed 00=BQL 1=CBA 02=NAB", whole(HEAD, [detail("009-000", trace="019-000"),
                                                 detail("029-000", trace="030-000")]),
        (12, 3, 81, 2))
    # places in the list: all numbers found, then one missing below, between and above
    for numbers in ([12], [12, 13], [3, 12, 40, 41, 98]):
        house = "listed " + " ".join(f"{number}=BQL" for number in numbers)
        found = [detail(f"{number:02}0-000", trace=f"{number:02}9-999") for number in numbers]
        add(house, whole(HEAD, found), ACCEPTED)
        missing = [number for number in (numbers[0] - 1, numbers[len(numbers) // 2] + 2,
                                         numbers[-1] + 1) if number not in numbers]
        for place, number in enumerate(missing):
            if place % 2:
                add(house, whole(HEAD, found[-2:] + [detail("120-000", trace=f"{number:02}0-000")]),
                    (12, 2 + len(found[-2:]), 81, 2))
            else:
                add(house, whole(HEAD, found[:1] + [detail(f"{number:02}9-999")]), (12, 3, 2, 2))
    add(full_list(), whole(header("B99"), [detail(f"{n:02}{n % 10}-000", trace=f"{n + 1:02}5-123")
                                         for n in range(0, 100, 2)]), ACCEPTED)
    evens = "listed " + " ".join(f"{n}=B{n:02}" for n in range(0, 100, 2))
    evens_file = [detail(f"{n:02}0-000", trace=f"{98 - n:02}0-000") for n in range(0, 100, 14)]
    add(evens, whole(header("B98"), evens_file + [detail("990-000")]), (12, 10, 2, 2))
    add(evens, whole(header("B99"), evens_file), (12, 1, 21, 1))


def listed_order():
    other, away = header("NAB"), detail("082-000")
    # fields, then 11, then 12, on one line
    add(BANKS, put(other, 120, "x") + rest(CREDIT), (7, 1, 120))
    add(BANKS, put(other, 75, "290223") + rest(CREDIT), (10, 1, 75))
    add(BANKS, HEAD + put(away, 97, " " * 16) + rest(DEBIT + TRAIL), (8, 2, 97))
    add(BANKS, HEAD + detail("082-000", tax=1) + rest(DEBIT + TRAIL), (11, 2, 113))
    add(BANKS, HEAD + detail(trace="082-000", tax=1, mark="N") + rest(DEBIT), (11, 2, 113))
    add(BANKS, HEAD + detail("082-000", tax=1, mark="X") + rest(DEBIT + TRAIL), (12, 2, 2, 2))
    add(BANKS, HEAD + put(away, 122, "\r") + rest(DEBIT + TRAIL), (2, 2, 122))
    # the earlier line
    add(BANKS, other + away + DEBIT + TRAIL, (12, 1, 21, 1))
    add(BANKS, other, (12, 1, 21, 1))
    add(BANKS, HEAD + detail(code="14") + away + TRAIL, (10, 2, 19))
    add(BANKS, HEAD + detail(trace="082-000") + away + TRAIL, (12, 2, 81, 2))
    add(BANKS, HEAD + away + trailer(0, 0, 0, 0) + b"x", (12, 2, 2, 2))
    # the trailer; no rule of this house is on the tally
    add(BANKS, HEAD + trailer(0, 0, 0, 0), (17, 2, 1))
    add(BANKS, HEAD + CREDIT + DEBIT + put(TRAIL, 41, "1"), (18, 4, 41))
    add(BANKS, SAMPLE + b"\x1a", (20, 5, 1))
    every = [detail(code=code, title=";", reference="a;", remitter=";b")
             for code in make_cases.CODES]
    add(BANKS, whole(header(user=";;", about="x;"), every), ACCEPTED)


# ---- making a settling BSB and account

def settling_values():
    refused = [
        ("1000000 77001234", 6, 2), ("4295091297 77001234", 6, 2),
        ("18446744073709551615 1", 6, 2),
        ("124001 1234567890", 6, 9), ("124001 77-001-234", 6, 9),
        ("124001 " + "7" * 265, 6, 9), ("124001 ~~~~~~~~~~", 6, 9),
        ("124001 x", 7, 17), ("124001 12x45", 7, 15), ("124001 x23456789", 7, 9),
        ("124001 12345678x", 7, 17), ("124001 12\xff", 7, 17),
        ("124001 1;2;3", 7, 14), ("124001 0x0", 7, 16),
        ("124001 0", 8, 9), ("124001 000000000", 8, 9), ("124001 -", 8, 9),
        # the BSB comes before the account
        ("1000000 x", 6, 2), ("1000000 0", 6, 2),
    ]
    files = [SAMPLE, b"", HEAD, b""]
    for place, (values, number, column) in enumerate(refused):
        add("balanced " + values, files[place % 4], (number, 0, column))
    # unusual values that settle
    for bsb, account, shown in [("0", "1", "000-000"), ("999999", "999999999", "999-999"),
                                ("62000", "-1", "062-000"), ("062000", "1--------", "062-000"),
                                ("000012", "000000001", "000-012")]:
        add(f"balanced {bsb} {account}", whole(HEAD, [CREDIT, detail(shown, account, " ", "13")]),
            ACCEPTED)


# ---- the balanced house on headers and payments

USER, ABOUT = (31, 26), (63, 12)                        # first column and width
TITLE, REFERENCE, REMITTER = (31, 32), (63, 18), (97, 16)


def places(first, width):
    """Some columns of a text, its ends among them."""
    some = {0, 1, width // 2, width - 1}
    return [first + place for place in sorted(some)]


def balanced_headers():
    for name in ("CBA", "bql", "BQ", "BQ;", "BBL"):
        add(SETTLING, header(name) + rest(CREDIT + DEBIT + TRAIL), (12, 1, 21, 1))
    full = header(user="U" * 26, about="D" * 12)
    for column in places(*USER) + places(*ABOUT):
        start = HEAD if column in (31, 44, 63) else full
        add(SETTLING, put(start, column, ";") + rest(CREDIT + DEBIT + TRAIL), (12, 1, column, 3))
    for user, about, column in [("U", ";" * 12, 63), ("U" * 26, "D;D;D", 64), ("a b  ;;", "D;", 36),
                                ("U" * 25 + ";", ";", 56)]:
        add(SETTLING, header(user=user, about=about) + rest(CREDIT + DEBIT + TRAIL),
            (12, 1, column, 3))
    add(SETTLING, header("CBA", user=";", about=";"), (12, 1, 21, 1))


def balanced_payments():
    for code in ("51", "52"):
        wrong = detail(code=code)
        add(SETTLING, whole(HEAD, [wrong, DEBIT]), (12, 2, 19, 2))
        add(SETTLING, whole(HEAD, [CREDIT, wrong, DEBIT]), (12, 3, 19, 2))
        add(SETTLING, HEAD + detail(code=code, title=";", reference=";", remitter=";"),
            (12, 2, 19, 2))
    add(SETTLING, whole(HEAD, [DEBIT, detail("124-001", "77001234", code="52")]), (12, 3, 19, 2))
    full = detail(title="T" * 32, reference="R" * 18, remitter="S" * 16)
    for column in places(*TITLE) + places(*REFERENCE) + places(*REMITTER):
        start = CREDIT if column in (31, 63, 97) else full
        add(SETTLING, HEAD + put(start, column, ";") + rest(DEBIT + TRAIL), (12, 2, column, 3))
    for title, reference, remitter, column in [
            (";" * 32, "R", "S", 31), ("T;", ";", ";", 32), ("T", "R;", ";", 64),
            ("T" * 31 + ";", ";" * 18, "S", 62), ("T", "a ; ; b", "S", 65),
            ("T", "R", "a,b;c;d", 100)]:
        add(SETTLING, HEAD + detail(title=title, reference=reference, remitter=remitter)
            + rest(DEBIT + TRAIL), (12, 2, column, 3))
    # the settling payment is judged like any other
    add(SETTLING, HEAD + CREDIT + put(DEBIT, 63, ";") + TRAIL, (12, 3, 63, 3))
    # all other codes and characters pass
    codes = [detail(code=code, cents=10) for code in ("50", "53", "54", "55", "56", "57")]
    add(SETTLING, whole(HEAD, codes + [put(DEBIT, 21, b"%010d" % 60)]), ACCEPTED)
    others = SET.replace(";", "")
    add(SETTLING, whole(header(user=others[:26], about=others[50:62]), [
        detail(title="x" + others[54:], reference=others[26:44], remitter=others[44:60]), DEBIT]),
        ACCEPTED)


# ---- the balanced house on tallies

def balanced_tallies():
    def own(code="13", cents=125050, **more):       # settles
        return detail("124-001", "77001234", " ", code, cents, "RIDGE COACHES", **more)

    def case(details, expect):
        if expect != ACCEPTED:
            expect = (19, len(details) + 2, 1, expect)
        add(SETTLING, whole(HEAD, details), expect)

    one, two, three = (detail(cents=cents) for cents in (1, 2, 3))
    # settled by a debit, by a credit of any code
    case([one, two, three, own(cents=6)], ACCEPTED)
    case([detail(code="13", cents=cents) for cents in (1, 2, 3)] + [own("50", 6)], ACCEPTED)
    for code in ("53", "57"):
        case([detail(code="13", cents=5), own(code, 5)], ACCEPTED)
    case([detail(cents=MAX_CENTS), own(cents=MAX_CENTS)], ACCEPTED)
    case([detail(mark="W", tax=500, cents=7), own(cents=7)], ACCEPTED)
    # 4: totals differ, by a cent or altogether
    case([one, two, own(cents=4)], 4)
    case([detail(cents=2**32 + 5), own(cents=5)], 4)
    case([detail(mark="W", tax=1, cents=7), own(cents=6)], 4)
    case([own()], 4)
    case([own("50")], 4)
    case([one, two, three], 4)
    # 5: the last payment is not the settling one
    case([DEBIT, CREDIT], 5)
    case([CREDIT, detail(code="13")], 5)
    for bsb, account in [("124-002", "77001234"), ("124-001", "77001235"), ("124-001", "77-001234"),
                         ("124-001", "77001234-"), ("124-001", "077001234"), ("124-001", "7700123"),
                         ("124-001", "7001234"), ("001-124", "77001234"), ("024-001", "77001234")]:
        case([CREDIT, detail(bsb, account, code="13")], 5)
    case([CREDIT, detail("062-000", "1", code="13", trace="124-001", trace_account="77001234")], 5)
    for settling, account in [("77-001234", "77001234"), ("77-001234", "770-01234"), ("0077", "77"),
                              ("77", "0077"), ("-5", "5"), ("12345678", "123456789")]:
        add(f"balanced 124001 {settling}",
            whole(HEAD, [CREDIT, detail("124-001", account, code="13")]), (19, 4, 1, 5))
    for account in ("77-001234", "00634226"):
        add(f"balanced 124001 {account}",
            whole(HEAD, [CREDIT, detail("124-001", account, code="13")]), ACCEPTED)
    add("balanced 12400 77001234", SAMPLE, (19, 4, 1, 5))
    # 6: the last one's side has another
    case([detail(cents=10), own(cents=4), own(cents=6)], 6)
    case([detail(cents=10), detail(code="13", cents=9), own(cents=1)], 6)
    case([detail(code="13", cents=10), one, own("53", 9)], 6)
    case([detail(code="13", cents=10), detail(code="57", cents=1), own("50", 9)], 6)
    case([detail(code="13", cents=4), detail(cents=10), own(cents=6)], 6)
    case([detail(code="13", cents=6)] * 2 + [detail(code=c, cents=3) for c in ("53", "54", "55")]
         + [own("56", 3)], 6)
    # 4, then 5, then 6
    stranger = detail(code="13", cents=6)
    case([one, stranger], 4)
    case([detail(cents=10), own(cents=5), own(cents=6)], 4)
    case([detail(cents=10), stranger, stranger], 4)
    case([detail(cents=12), stranger, stranger], 5)


def balanced_order():
    bad = header("CBA")
    # fields, then 11, then 12, on one line
    add(SETTLING, put(bad, 120, "x") + rest(CREDIT), (7, 1, 120))
    add(SETTLING, put(bad, 75, "000124") + rest(CREDIT), (10, 1, 75))
    add(SETTLING, header(user=";", about="~"), (7, 1, 63))
    for change in (dict(code="51"), dict(title=";"), dict(remitter=";")):
        add(SETTLING, HEAD + detail(tax=1, **change) + rest(DEBIT + TRAIL), (11, 2, 113))
    add(SETTLING, HEAD + detail(title=";", reference=" x") + rest(DEBIT), (9, 2, 63))
    add(SETTLING, HEAD + detail(code="51", tax=1, mark="Y") + rest(DEBIT), (12, 2, 19, 2))
    # the earlier line
    add(SETTLING, bad + detail(code="51")[:121], (12, 1, 21, 1))
    add(SETTLING, HEAD + detail(remitter=";") + detail(code="51") + TRAIL, (12, 2, 97, 3))
    add(SETTLING, HEAD + detail(code="58") + detail(code="51") + TRAIL, (10, 2, 19))
    add(SETTLING, HEAD + detail(title=";") + put(TRAIL, 21, "1") + b"x", (12, 2, 31, 3))
    # at the trailer: its fields, 17, 18, then 19, then 20
    add(SETTLING, HEAD + trailer(0, 0, 0, 0), (17, 2, 1))
    unequal, strange = [CREDIT], [DEBIT, CREDIT]
    crowd = [detail(cents=2), detail("124-001", "77001234", code="13", cents=1),
             detail("124-001", "77001234", code="13", cents=1)]
    for reason, details in ((4, unequal), (5, strange), (6, crowd)):
        end, line = trailer_for(details), len(details) + 2
        start = HEAD + b"".join(details)
        for place, column in [(0, 21), (1, 31), (2, 41), (3, 75)][:2 + 2 * (reason == 4)]:
            values = list(totals(details))
            values[place] += 1
            add(SETTLING, start + trailer(*values) + rest(b"x"), (18, line, column))
        add(SETTLING, start + put(end, 51, "x"), (7, line, 51))
        add(SETTLING, start + end + (end if reason == 5 else b"\x00"), (19, line, 1, reason))
    add(SETTLING, SAMPLE + TRAIL, (20, 5, 1))
    big, back = detail(cents=MAX_CENTS), put(DEBIT, 21, b"%010d" % MAX_CENTS)
    add(SETTLING, HEAD + big * 2 + back + trailer(MAX_CENTS, MAX_CENTS, MAX_CENTS, 3), (18, 5, 31))
    add(SETTLING, HEAD + (big + back) * 2 + trailer(0, MAX_CENTS, MAX_CENTS, 4), (18, 6, 31))


# ---- files made at random, judged by second/aba.py alone

def at_random():
    dice = Dice(3)

    def maybe(text):                # without semicolons, mostly
        return text if dice.once_in(40) else text.replace(";", ":")

    for _ in range(7):
        numbers = sorted({dice.below(100) for _ in range(dice.between(20, 60))})
        names = [some_text(dice, 3).replace(" ", "_") for _ in numbers]
        house = "listed " + " ".join(f"{n}={name}" for n, name in zip(numbers, names))

        def bsb():
            bank = dice.pick(numbers) if dice.below(16) else dice.below(100)
            return f"{bank:02}{dice.below(10)}-{dice.below(1000):03}"
        details = []
        for _ in range(dice.between(1, 4)):
            details.append(put(put(some_detail(dice), 2, bsb()), 81, bsb()))
        bank = dice.pick(names) if dice.below(6) else some_text(dice, 3)
        add(house, whole(put(some_header(dice), 21, f"{bank:<3}"), details))

    for _ in range(14):
        branch, account = some_bsb(dice), some_account(dice)
        settled_by_debit = dice.below(2)
        details, total = [], 0
        for _ in range(dice.between(1, 3)):
            cents = dice.pick([1, dice.between(1, 10**9), MAX_CENTS // 4])
            credit = dice.pick(["50", "53", "54", "55", "56", "57"]) if dice.below(25) else "51"
            code = credit if settled_by_debit or dice.once_in(12) else "13"
            total += cents
            details.append(detail(some_bsb(dice), some_account(dice), " ", code, cents,
                                  maybe(some_text(dice, 32)), maybe(some_text(dice, 18)),
                                  some_bsb(dice), some_account(dice), maybe(some_text(dice, 16))))
        if dice.once_in(8):
            total += 1
        code = "13" if settled_by_debit else dice.pick(["50", "53", "57"])
        details.append(detail(branch, account, " ", code, total, remitter=maybe(some_text(dice, 16))))
        if dice.once_in(8):
            details.reverse()
        head = header("BQL" if dice.below(12) else some_text(dice, 3), maybe(some_text(dice, 26)), 7,
                      maybe(some_text(dice, 12)))
        data = whole(head, details)
        if dice.once_in(6):         # any byte anywhere
            place = dice.below(len(data))
            data = data[:place] + bytes([dice.below(256)]) + data[place + 1:]
        if dice.once_in(10):
            account = account[1:] + account[:1]
        add(f"balanced {branch.replace('-', '')} {account}", data)


def many_details():
    cent = detail(cents=1, code="50")

    def own(cents):
        return put(DEBIT, 21, b"%010d" % cents)

    def case(house, times, more, expect, end=b""):
        sums = times + sum(int(d[20:30]) for d in more if d[18:20] != b"13"), sum(
            int(d[20:30]) for d in more if d[18:20] == b"13")
        last = trailer(abs(sums[0] - sums[1]), *sums, min(times + len(more), 999999))
        add_pieces([(1, HEAD), (times, cent), (1, b"".join(more)), (1, last + end)], expect,
                   [1, times + 1, times + 2, times + 3], words(house))

    case(SETTLING, 5000, [own(5000)], ACCEPTED)
    case(SETTLING, 5000, [own(1), own(4999)], (19, 5004, 1, 6))
    case(BANKS, 5000, [detail(trace="070-000")], (12, 5002, 81, 2))
    case(SETTLING, 999998, [own(999998)], ACCEPTED)
    case(SETTLING, 999999, [detail(code="51")], (4, 1000001, 1))


def unwritable():
    """What cannot be written as a word above: values with blanks.  Only checked here."""
    for value, expect in [(b" ", (8, 21)), (b"   ", (8, 21)), (b"    ", (6, 21)), (b" QL", (9, 21)),
                          (b" Q ", (9, 21)), (b"BQ ", (9, 23)), (b"B ", (9, 22)), (b" ~", (7, 22)),
                          (b"~ ", (7, 21)), (b"B L", None)]:
        found = aba.house_of([b"listed", b"12=" + value])
        assert found == aba.Fault(expect[0], 0, expect[1]) if expect else found.lines, value
    for value, expect in [(b"", (8, 9)), (b"         ", (8, 9)), (b" 0", (8, 9)), (b" 1", (9, 16)),
                          (b"1 ", (9, 17)), (b"1 2 3", (9, 14)), (b"1 2345678", (9, 10)),
                          (b" 77001234", (9, 9)), (b"1 x", (7, 17)), (b" 123456789", (6, 9))]:
        found = aba.house_of([b"balanced", b"124001", value])
        assert found == aba.Fault(expect[0], 0, expect[1]), value
    for wrong in ([], [b"Plain"], [b"plain", b""], [b"listed", b"12"], [b"listed", b"=BQL"],
                  [b"listed", b"1x=BQL"], [b"listed", b"-1=BQL"], [b"listed", b"18446744073709551616=A"],
                  [b"balanced"], [b"balanced", b"124001"], [b"balanced", b"124-001", b"1"],
                  [b"balanced", b"", b"1"], [b"balanced", b"124001", b"1", b"2"], [b"other"]):
        assert aba.inspect(wrong, SAMPLE) == b"", wrong
    assert aba.Balanced(124001, b"1").tally(aba.Summary()) == aba.No(5)


def main(root):
    unwritable()
    make_cases.gather()
    known()
    bank_lines()
    listed_names()
    listed_numbers()
    listed_order()
    settling_values()
    balanced_headers()
    balanced_payments()
    balanced_tallies()
    balanced_order()
    at_random()
    many_details()
    cases, answers, counters = make_cases.stored()
    example, args = wages(), ["balanced", "124001", "234567890"]
    make_cases.write(root, {
        "vectors/stdin": cases,
        "vectors/stdout": answers,
        "inspect/stdin": example,
        "inspect/args": "".join(arg + "\n" for arg in args).encode(),
        "inspect/stdout": aba.inspect(args, example),
    }, counters)


if __name__ == "__main__":
    if len(sys.argv) != 2:
        sys.exit("usage: python3 second/make_house_cases.py DIRECTORY")
    main(sys.argv[1])
