"""The script language of ksmbook as data: its lines, knobs and refusals, and why a line is bad.

`docs/SCRIPT.md` is the language in words. What stands here is the same for programs: examples/shell checks each line
by it, and bench/language checks it against that document and against the program.

A bad line has one cause. Its words are read from left to right, and the first that cannot stand there is at fault:
`fault_of` tells the cause, the column of the first byte at fault (bytes, from 1), and what is quoted behind the
sentence. What is quoted is always printable, so a cause can be written to a terminal whatever the line's bytes are.
"""

from collections.abc import Callable
from dataclasses import dataclass

LONGEST_LINE = 256
CONTENT_DIGITS = (2, 128)
# a word that is quoted is cut behind so many bytes
LONGEST_QUOTE = 32
DIGITS = b"0123456789"
HEX_DIGITS = b"0123456789abcdefABCDEF"
SPACE, TAB, CARRIAGE_RETURN, COMMENT = b" \t\r#"


@dataclass(frozen=True)
class Part:
    """What a word of a line stands for: its name in the forms, the noun for it, and the largest number, if one."""

    name: str
    noun: str
    most: int | None = None


GUEST = Part("G", "guest", 65535)
PAGE = Part("P", "page", 4294967295)
NODE = Part("NODE", "node", 4294967295)
PLACE = Part("PLACE", "place", 4294967295)
PASS = Part("K", "pass", 4294967295)
VISITS = Part("N", "number of visits", 4294967295)
VALUE = Part("V", "value", 4294967295)
CONTENT = Part("HEX", "content")
KNOB = Part("KNOB", "knob")
SHOWN = Part("KNOB", "knob")
NUMBERS = [GUEST, PAGE, NODE, PLACE, PASS, VISITS, VALUE]


@dataclass(frozen=True)
class Form:
    """A form of a line: its name and parts, what it does, its reply, and the refusals in the order of their tests."""

    name: str
    parts: tuple[Part, ...]
    does: str
    reply: str
    refusals: tuple[int, ...] = ()

    def __str__(self) -> str:
        return " ".join([self.name, *(part.name for part in self.parts)])


LOOKED_UP = "held FRAME GENERATION, gone WHY or busy"
FORMS = [
    Form("reg", (GUEST, PAGE, NODE, CONTENT), "registers a page with its home node and content", "ok", (11, 3, 4)),
    Form("drop", (GUEST, PAGE), "takes a page out of the book", "ok", (2,)),
    Form("put", (GUEST, PAGE, CONTENT), "stores to a page", "ok", (2, 4)),
    Form("get", (GUEST, PAGE), "reads a page", "its 128 digits", (2,)),
    Form("ticket", (GUEST, PAGE), "asks at which place a page is merged", "place PLACE, or private", (2,)),
    Form("rmap", (PLACE,), "asks which pages are merged at a place", "rmap G:P ..., ascending", (10,)),
    Form("scan", (), "makes pages_to_scan visits", "scanned VISITS", (5,)),
    Form("scan", (VISITS,), "makes N visits, or none where no page is mergeable", "scanned VISITS", (5,)),
    Form("prune", (), "drops every stale dup", "pruned COUNT"),
    Form("unmerge", (GUEST,), "unmerges the pages of a guest, which the scan then passes over", "unmerged PAGES", (2,)),
    Form("mergeable", (GUEST,), "makes the pages of a guest mergeable", "ok", (2,)),
    Form("move", (GUEST, PAGE, NODE), "moves a page to another node", "ok", (11, 2, 4)),
    Form("movedup", (PLACE, NODE), "moves a dup's content to another frame", "ok", (11, 10, 9, 4, 8)),
    Form("set", (KNOB, VALUE), "sets a knob", "ok; unmerged PAGES for set run 2, which unmerges all", (7, 6)),
    Form("show", (SHOWN,), "asks for a knob, or for ksm_zero_pages", "its value"),
    Form("stat", (), "asks for the counters", "stat, and name=number for each of seven counters"),
    Form("find", (PASS, PLACE), "looks a place up with pass K, which then holds the frame", LOOKED_UP, (12, 13, 10)),
    Form("equal", (PASS, PLACE, CONTENT), "the same, and compares the content",
         f"{LOOKED_UP}; differs FRAME GENERATION", (12, 13, 10)),
    Form("look", (PASS,), "reads the frame that pass K holds", "its 128 digits", (12, 14)),
    Form("leave", (PASS,), "gives the hold of pass K back", "ok", (12, 14)),
    Form("audit", (), "looks each place up with the passes that hold nothing",
         "audit, then found:GENERATION:DIGITS, gone:WHY or busy a place", (13,)),
]

NAMES = list(dict.fromkeys(form.name for form in FORMS))


@dataclass(frozen=True)
class Knob:
    """A knob, its range, what it is at the opening, and what it does."""

    name: str
    least: int
    most: int
    default: int
    does: str


KNOBS = [
    Knob("run", 0, 2, 0, "0 stops the scan and keeps merged pages, 1 runs it, 2 stops it and unmerges all"),
    Knob("pages_to_scan", 1, 1000000, 100, "visits of a scan without a number"),
    Knob("merge_across_nodes", 0, 1, 1, "1 merges across nodes, 0 pages of one node; set while nothing is shared"),
    Knob("max_page_sharing", 2, 1024, 256, "the most pages that one dup serves; set while nothing is shared"),
    Knob("use_zero_pages", 0, 1, 0, "1 merges pages of zeroes with the zero page, which takes no frame"),
]
ZERO_PAGES = "ksm_zero_pages"
KNOB_NAMES = [knob.name for knob in KNOBS]

# the number of a refusal: what ksmbook says of it (NODE is a number there), and where it is given
REFUSALS = {
    1: ("memory was refused, and the line may be sent again", "any line that needs memory"),
    2: ("there is no such page, or no page of the guest", "any line that names a page or a guest, reg aside"),
    3: ("the page is registered already", "reg"),
    4: ("no frame of node NODE is free", "each is in use, held by a pass, or retired"),
    5: ("no scan runs while run is not 1", "scan"),
    6: ("the knob stays as it is while pages are shared",
        "merge_across_nodes or max_page_sharing set to another value while shared is above 0"),
    7: ("the value is out of the knob's range", "set"),
    8: ("a pass holds the frame", "movedup"),
    9: ("the dup would cross nodes while merge_across_nodes is 0", "movedup to another node"),
    10: ("no dup with pages stands at the place, or there is no such place",
         "the first for rmap and movedup, the second for find and equal"),
    11: ("there is no such node", "any line that names a node"),
    12: ("there is no such pass", "any line that names a pass"),
    13: ("the pass holds a frame, or at an audit each pass does", "find, equal and audit"),
    14: ("the pass holds no frame", "look and leave"),
}

# why a lookup found nothing
GONE = {
    1: "the place was empty",
    2: "the frame's count was zero",
    3: "the frame was in another life than the place named",
}


@dataclass(frozen=True)
class Cause:
    """Why a line is bad: the sentence, and a line of this cause, with the column at fault and what is quoted."""

    sentence: str
    example: bytes
    column: int
    quoted: str = ""


def _missing(noun: str, example: bytes) -> Cause:
    return Cause(f"the {noun} is missing", example, len(example) + 1)


def _not_a_number(noun: str, example: bytes, column: int) -> Cause:
    return Cause(f"a {noun} that is not a decimal number", example, column, "x")


def _too_large(part: Part, example: bytes, column: int) -> Cause:
    assert part.most is not None
    return Cause(f"a {part.noun} above {part.most}", example, column, str(part.most + 1))


CAUSES = {
    "long line": Cause("the line is longer than 256 bytes", b"a" * 257, 257),
    "space before": Cause("a space before the first word", b" stat", 1),
    "two spaces": Cause("two spaces between words", b"look  0", 6),
    "space after": Cause("a space after the last word", b"stat ", 5),
    "tab": Cause("a tab, where words are separated by one space", b"get 0\t0", 6),
    "carriage return": Cause("a carriage return, where a line ends at a newline alone", b"stat\r", 5),
    "other byte": Cause("a byte that no line has", b"stat\xc3\xa9", 5, "0xc3"),
    "comment": Cause("a comment, which the language does not have", b"# two pages", 1),
    "capital": Cause("a capital letter in a name", b"STAT", 1, "STAT"),
    "unknown name": Cause("no line begins with this word", b"stats", 1, "stats"),
    "missing guest": _missing("guest", b"get"),
    "missing page": _missing("page", b"get 0"),
    "missing node": _missing("node", b"movedup 0"),
    "missing place": _missing("place", b"find 0"),
    "missing pass": _missing("pass", b"look"),
    "missing value": _missing("value", b"set run"),
    "missing content": _missing("content", b"put 0 0"),
    "missing knob": _missing("knob", b"show"),
    "one word more": Cause("a word more than the line has", b"stat 0", 6, "0"),
    "sign": Cause("a number with a sign", b"get 0 +1", 7, "+1"),
    "leading zero": Cause("a number with a leading zero", b"get 00 0", 5, "00"),
    "not a guest": _not_a_number("guest", b"get x 0", 5),
    "not a page": _not_a_number("page", b"get 0 x", 7),
    "not a node": _not_a_number("node", b"move 0 0 x", 10),
    "not a place": _not_a_number("place", b"rmap x", 6),
    "not a pass": _not_a_number("pass", b"leave x", 7),
    "not a number of visits": _not_a_number("number of visits", b"scan x", 6),
    "not a value": _not_a_number("value", b"set run x", 9),
    "large guest": _too_large(GUEST, b"get 65536 0", 5),
    "large page": _too_large(PAGE, b"get 0 4294967296", 7),
    "large node": _too_large(NODE, b"move 0 0 4294967296", 10),
    "large place": _too_large(PLACE, b"rmap 4294967296", 6),
    "large pass": _too_large(PASS, b"leave 4294967296", 7),
    "large number of visits": _too_large(VISITS, b"scan 4294967296", 6),
    "large value": _too_large(VALUE, b"set run 4294967296", 9),
    "hexadecimal digit": Cause("a byte of the content that is not a hexadecimal digit", b"put 0 0 ag", 10, "g"),
    "content length": Cause("content of neither 2 digits nor 128", b"put 0 0 aaa", 9, "aaa"),
    "unknown knob": Cause("no knob has this name", b"set foo 1", 5, "foo"),
    "unknown shown": Cause("no knob or counter is shown by this name", b"show foo", 6, "foo"),
    "counter set": Cause("a counter, which is shown and never set", b"set ksm_zero_pages 1", 5, "ksm_zero_pages"),
}


@dataclass(frozen=True)
class Fault:
    """Why a line is bad: the key of its cause, the column at fault, and what is quoted."""

    cause: str
    column: int
    quoted: str = ""

    def __str__(self) -> str:
        sentence = CAUSES[self.cause].sentence
        return f"{sentence}: {self.quoted}" if self.quoted else sentence


# What is wrong with a word: the key of the cause, the index of the first byte at fault, and what is quoted.
Slip = tuple[str, int, str]


def _quote(word: bytes) -> str:
    """A printable word, cut where it is long."""
    return word[:LONGEST_QUOTE].decode() + (".." if len(word) > LONGEST_QUOTE else "")


def _strange_byte(word: bytes) -> Slip | None:
    """The first byte that stands in no word of any line."""
    for i, byte in enumerate(word):
        if byte == TAB:
            return "tab", i, ""
        if byte == CARRIAGE_RETURN:
            return "carriage return", i, ""
        if not 0x20 < byte < 0x7F:
            return "other byte", i, f"0x{byte:02x}"
    return None


def _bad_number(part: Part, word: bytes) -> Slip | None:
    digits = word[1:] if word[:1] in (b"+", b"-") else word
    if not digits or digits.strip(DIGITS):
        return f"not a {part.noun}", 0, _quote(word)
    if digits != word:
        return "sign", 0, _quote(word)
    if word[:1] == b"0" and len(word) > 1:
        return "leading zero", 0, _quote(word)
    if part.most is not None and int(word) > part.most:
        return f"large {part.noun}", 0, _quote(word)
    return None


def _bad_content(word: bytes) -> Slip | None:
    for i, byte in enumerate(word):
        if byte not in HEX_DIGITS:
            return "hexadecimal digit", i, chr(byte)
    if len(word) not in CONTENT_DIGITS:
        return "content length", 0, _quote(word)
    return None


def _bad_name(names: list[str], unknown: str, word: bytes) -> Slip | None:
    text = word.decode()
    if text in names:
        return None
    return ("capital" if text.lower() in names else unknown), 0, _quote(word)


def _bad_knob(word: bytes) -> Slip | None:
    if word == ZERO_PAGES.encode():
        return "counter set", 0, ZERO_PAGES
    return _bad_name(KNOB_NAMES, "unknown knob", word)


def _bad_shown(word: bytes) -> Slip | None:
    return _bad_name([*KNOB_NAMES, ZERO_PAGES], "unknown shown", word)


def _bad_first(word: bytes) -> Slip | None:
    if word[0] == COMMENT:
        return "comment", 0, ""
    return _bad_name(NAMES, "unknown name", word)


def _reader(part: Part) -> Callable[[bytes], Slip | None]:
    """What tells of a printable word why it is not this part."""
    if part is CONTENT:
        return _bad_content
    if part is KNOB:
        return _bad_knob
    if part is SHOWN:
        return _bad_shown
    return lambda word: _bad_number(part, word)


def _slip_in(read: Callable[[bytes], Slip | None], word: bytes) -> Slip | None:
    """Why a word is not what is read. A word that is has printable bytes alone."""
    return _strange_byte(word) or read(word)


def parts_of(name: str) -> tuple[Part, ...]:
    """The parts behind a name, where the line has all of them."""
    return max((form.parts for form in FORMS if form.name == name), key=len)


def may_end(name: str, count: int) -> bool:
    """Whether a line of this name may end behind so many parts."""
    return any(form.name == name and len(form.parts) == count for form in FORMS)


def _space_fault(words: list[bytes], i: int, column: int) -> Fault:
    """Why word i has no bytes. The space that is one too many is at fault."""
    if i == 0:
        return Fault("space before", column)
    if any(words[i:]):
        return Fault("two spaces", column)
    return Fault("space after", column - 1)


def _fault_at_end(words: list[bytes], column: int) -> Fault | None:
    """What is wrong with a line whose words are all right, at the column behind its last byte."""
    name = words[0].decode()
    count = len(words) - 1
    if may_end(name, count):
        return None
    return Fault(f"missing {parts_of(name)[count].noun}", column)


def fault_of(line: bytes) -> Fault | None:
    """Why a line, without its newline, is bad; None where it is good."""
    if not line:
        return None
    if len(line) > LONGEST_LINE:
        return Fault("long line", LONGEST_LINE + 1)
    words = line.split(b" ")
    column = 1
    for i, word in enumerate(words):
        if not word:
            return _space_fault(words, i, column)
        parts = parts_of(words[0].decode()) if i else ()
        if i > len(parts):
            slip = _strange_byte(word) or ("one word more", 0, _quote(word))
        else:
            slip = _slip_in(_reader(parts[i - 1]) if i else _bad_first, word)
        if slip:
            return Fault(slip[0], column + slip[1], slip[2])
        column += len(word) + 1
    return _fault_at_end(words, column - 1)


def form_of(line: str) -> Form | None:
    """The form of a good line; None of an empty one."""
    words = line.split(" ")
    return next((form for form in FORMS if form.name == words[0] and len(form.parts) == len(words) - 1), None)


def quoted(line: bytes) -> str:
    """A good line as it is quoted."""
    return _quote(line)


def refusal_in(reply: str) -> int | None:
    """The number of the refusal with which a reply ends, as in `refused 4` and `unmerged 1 refused 4`."""
    words = reply.split(" ")
    return int(words[-1]) if len(words) > 1 and words[-2] == "refused" else None
