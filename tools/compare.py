#!/usr/bin/env python3
"""Compares the program `answers` with the Rust crate on generated texts: task tok under both profiles, and task ident; or, with --listings, the
task oqlist with no word, which is held to profile 1, with the words 0 and 1, and with one that asks for none; with --marks, either on texts of
direction marks and what stands near them; with --underscores, either on numbers and hardware identifiers full of underscores; or, with --bodies, the
tasks unescape in all seven modes, char and byte, on bodies of literals; or, with --digits, the task unescape in modes 1 and 4 on escapes by number, with
every pair of characters of ASCII and every scalar value as a digit; or, with --parts, the task parts, which the Rust has not and PROGRAM answers.
The Rust knows nothing of direction marks: where it cuts a text that holds one, 7 is wanted, with the place of the first. It says no token's start:
the lengths before it, added up, are wanted. It says nothing of misplaced underscores: what `misplaced` finds here is wanted.

    tools/compare.py RELEASE DEBUG ANSWERS [[--listings] [--marks | --underscores] [--model PROGRAM] | --bodies | --digits | --parts --model PROGRAM]
                     [--short N] [--random N] [--seed S] [--programs DIR]

RELEASE and DEBUG are the program that answers cases with the crate, built without and with debug assertions; ANSWERS is
crates/answers/out/answers. Every text of at most N pieces of the alphabet is compared (--short), behind each of several beginnings with --underscores, then
random texts of several sorts, and damaged ones, whole programs of DIR and damaged parts of them among them (not with --marks, --underscores and
--bodies); with --digits there are no others, and --short, --random and --seed do nothing. PROGRAM answers the task five, records of five words as
they are wanted: with --model the same cases are held to its answers too. With --parts every text of at most N pieces of each of several small sets is
cut: one of at most nine bytes in every way, a longer one at every set of ends of its pieces, alone and with one place more, and into its bytes; then random
histories follow. RELEASE and DEBUG are not asked. Exit status 1 if an answer differs; the first few that do are printed, a history up to the first answer
that differs.
"""
import argparse
import itertools
import pathlib
import random
import re
import subprocess
import sys

# Pieces at which a rule turns.
ALPHABET = [s.encode() for s in "/*\n\"01_.esudt#pragm@$\\é"] + [s.encode() for s in ("\U0001F600", "\u200D", "\u00B5", "\u03BC", "\u0085", "\0")]

# Pieces of which longer texts are made: whole words beside single marks.
WORDS = ALPHABET + [s.encode() for s in (
    " ", "  ", "\t", "\r\n", "\r", "//", "/*", "*/", "///", "/**/", "'", "''", "\"0", "01_1", "\"01\"", "\"0_1\"", "\"0__1\"",
    "\\\"", "\\\\", "0x", "0X", "0b", "0o", "0B", "0O", "0xfe", "0b102", "0o78", "1.", "1.5", "1e", "1e5", "1e+", "1E-3", "1.e5",
    "..", "1..2", ".5", "ns", "us", "ms", "s", "dt", "µs", "μs", "im", "sec", "pragma", "#pragma", "#pragm", "#pragmatic",
    "pragma/*", "#dim", "@x", "@ y", "$0", "$12", "$_", "$a", "OPENQASM", "qubit", "gate", "θ", "ÿ", "x1", "_a", "a\u0301",
    "\u2028", "\u2029", "\u200E", "\u00A0", "\u3000", "☕", "👨\u200D👩", "#️⃣", "1️⃣", "\uFEFF", "\U0010FFFF", "\U000E0001", "ª", "·",
    "℘", "ﬁ", "中", ";", ",", "(", ")", "{", "}", "[", "]", "~", "?", ":", "=", "!", "<", ">", "-", "&", "|", "+", "^", "%", "`", "\x7f", "\x01",
)]

# The direction marks; with the characters beside them and pieces of their bytes; and what stands around them, also in blocks of 32 bytes.
MARKS = "".join(map(chr, (*range(0x202A, 0x202F), *range(0x2066, 0x206A))))

MARK_ALPHABET = [c.encode() for c in MARKS] + [s.encode() for s in ("\u2029", "\u202F", "\u2065", "\u206A", "a", "/", "*", "\n", "\"", "é", "…", "中", "\U0001F600")] + [b"\xe2", b"\x80", b"\x81", b"\xae", b"\xa6"]

MARK_WORDS = MARK_ALPHABET + [s.encode() for s in ("//", "/*", "*/", "\"01\"", "1.5ns", "$0", "#pragma ", "pragma ", "@x ", " ", ";", "…" * 11, "中" * 11, "é" * 16, "\U0001F600" * 8, "a" * 31, " " * 32, "x = \"…\"; // “—” ")]

# What numbers and hardware identifiers begin with, pieces at which their rules turn, what stands between two, and what may stand behind one.
HEADS = [s.encode() for s in ("1", "0", "$", "0x", "0b", "0o", "0x1.", "1.5", "1e", "0xe", "1_", "$_")]

FIGURE_ALPHABET = [s.encode() for s in "01_.e+xb$fs"]

GAPS = [s.encode() for s in ("", "", " ", "\n", ";", "+", "-", ".", "..", "_", "$", "\"", "/*_*/", "//_\n", "\"0__1\"", "\"a_\"_", "é", "\U0001F600")]

TAILS = [s.encode() for s in ("", "", "", "s", "ns", "dt", "im", "µs", "μs", "_", "_a", "x", "f", "g_1", "é_")]

# Pieces at which a rule of bodies turns, and pieces of which longer bodies are made.
BODY_ALPHABET = [s.encode() for s in "\\nrtxu{}07Ff_'\"\n\r \té\u00A0\u3000\0"]

BODY_WORDS = BODY_ALPHABET + [s.encode() for s in (
    "\\n", "\\\\", "\\'", "\\\"", "\\0", "\\x41", "\\x7F", "\\xff", "\\x4", "\\xg1", "\\u{41}", "\\u{e9}", "\\u{D7FF}", "\\u{D800}", "\\u{DFFF}", "\\u{E000}",
    "\\u{10FFFF}", "\\u{110000}", "\\u{FFFFFF}", "\\u{1234567}", "\\u{0000041}", "\\u{4_1}", "\\u{_41}", "\\u{41_}", "\\u{}", "\\u{", "\\u{4", "\\u41", "\\u{4g}",
    "\\\n", "\\\n  ", "\\\n\n", "\\\n \t\r\n ", "\\\n\u00A0", "\\\n\n\u3000", "\\\n\x0b", "\\\n\u0085", "\\\n\u200E", "\\\n\u2028", "\\\r\n", "abc", "z", "A", "9", "g",
    "\x7f", "\u0080", "ÿ", "中", "\U0001F600", "\U0010FFFF", "\uFEFF", "\u1680", "\u180E", "\u200B", "\u202F", "\u205F",
)]

# Small sets of pieces, of which texts are made that are cut in all ways, or in many (`cuttings`).
SETS = [[s.encode() for s in pieces] for pieces in (
    ("/", "*", "\n", "a"), ("/", "*", "é"), ("\"", "0", "_", "\n"), ("\"", "_", "a", "1"), ("0", "x", ".", "e"), ("1", "_", ".", "e", "+"), ("0", "x", "_", "s"), ("0", "b", "_", "2"),
    ("$", "_", "1", "é"), ("$", "\U0001F600", "_", "0"), ("@", "a", "\n", "é"), ("#pragma", "\n", "a"), ("pragma", " ", "x"), ("#", "p", "pragma", "\n"), ("é", "\U0001F600", "a"),
    ("\U0001F600", "\u200D", "."), ("1", ".", "\u00B5", "s"), (";", " ", "\r", "\n"),
)] + [[b"\xe2", b"\x80", b"\xae", b"a"], [b"\xf0", b"\x9f", b"\x98", b"\x80"], ["\u202E".encode(), b"\xff", b";"]]

# The most bytes of a text that is cut at every set of places, and the most bytes of a carry, as a rule.
ALL_CUT = 9

CARRY = 40


def damaged(rng, text):
    """The text with a byte changed, left out, doubled or put in: often no UTF-8 any more."""
    b = bytearray(text)
    for _ in range(rng.randint(1, 3)):
        i = rng.randrange(len(b) + 1)
        how = rng.randrange(4)
        if how == 0 or i == len(b):
            b.insert(i, rng.randrange(256))
        elif how == 1:
            b[i] = rng.randrange(256)
        elif how == 2:
            del b[i]
        else:
            b[i:i] = b[max(0, i - 4):i]
    return bytes(b)


def scalar(rng):
    while True:
        c = rng.choice((rng.randrange(0x80), rng.randrange(0x800), rng.randrange(0x10000), rng.randrange(0x110000)))
        if not 0xD800 <= c <= 0xDFFF:
            return chr(c).encode()


def texts(rng, count, programs):
    for _ in range(count):
        sort = rng.randrange(10)
        if sort < 5:
            yield b"".join(rng.choice(WORDS) for _ in range(rng.randint(1, 12)))
        elif sort == 5:
            yield b"".join(rng.choice(WORDS) for _ in range(rng.randint(13, 200)))
        elif sort == 6:
            yield b"".join(scalar(rng) for _ in range(rng.randint(1, 20)))
        elif sort == 7:
            yield damaged(rng, b"".join(rng.choice(WORDS) for _ in range(rng.randint(1, 12))))
        elif sort == 8 and programs:
            p = rng.choice(programs)
            i = rng.randrange(len(p) + 1)
            yield damaged(rng, p[i:i + rng.randint(1, 300)])
        else:
            yield bytes(rng.choice(b"\"01_\n/*#e.x$@ ") for _ in range(rng.randint(1, 16)))


def marked(rng, count):
    for _ in range(count):
        sort = rng.randrange(4)
        text = b"".join(rng.choice(MARK_WORDS) for _ in range(rng.randint(1, 8)))
        if sort == 0:
            yield text
        elif sort == 1:
            yield damaged(rng, text)
        else:
            front = rng.choice((b"a", "é".encode(), "…".encode(), "中".encode(), "\U0001F600".encode())) * rng.randrange(40) + b" " * rng.randrange(4)
            mark = rng.choice(MARK_ALPHABET if sort == 2 else MARK_ALPHABET[:13])
            yield front + mark + rng.choice((b"", b"x", b" " * 33, text))


def run(rng, digits):
    """A run of digits and underscores, empty or seldom long."""
    return bytes(rng.choice(digits + b"____") for _ in range(rng.choice((0, 1, 2, 3, 4, 5, 6, 40))))


def figure(rng):
    """A number, a hardware identifier or what is nearly one."""
    out = rng.choice((b"", b"1", b"0", b"$", b"0x", b"0b", b"0o", b"0X"))
    out += run(rng, b"0129afAF" if out == b"0x" else b"0129")
    if rng.randrange(2):
        out += b"." + run(rng, b"0129")
    if rng.randrange(2):
        out += rng.choice((b"e", b"E", b"e+", b"e-", b"E+")) + run(rng, b"0129")
    return out + rng.choice(TAILS)


def figures(rng, count):
    for _ in range(count):
        text = b"".join(rng.choice(GAPS) + figure(rng) for _ in range(rng.choice((1, 1, 2, 3, 8))))
        yield text if rng.randrange(8) else damaged(rng, text)


def bodies(rng, count):
    for _ in range(count):
        sort = rng.randrange(10)
        if sort < 5:
            yield b"".join(rng.choice(BODY_WORDS) for _ in range(rng.randint(1, 8)))
        elif sort == 5:
            yield b"".join(rng.choice(BODY_WORDS) for _ in range(rng.randint(9, 120)))
        elif sort == 6:
            yield b"".join(scalar(rng) for _ in range(rng.randint(1, 12)))
        elif sort == 7:
            yield damaged(rng, b"".join(rng.choice(BODY_WORDS) for _ in range(rng.randint(1, 8))))
        elif sort == 8:
            yield b"\\u{" + bytes(rng.choice(b"0123456789abcdefABCDEFDd1_}") for _ in range(rng.randint(0, 9))) + rng.choice((b"}", b""))
        else:
            yield b"\\\n" + b"".join(rng.choice((b" ", b"\t", b"\n", b"\r", scalar(rng), rng.choice(BODY_WORDS))) for _ in range(rng.randint(0, 5)))


def digits():
    for pair in itertools.product(range(0x80), repeat=2):
        yield b"\\x" + bytes(pair)
        yield b"\\u{" + bytes(pair) + b"}"
    for c in itertools.chain(range(0xD800), range(0xE000, 0x110000)):
        digit = chr(c).encode()
        yield b"\\x0" + digit
        yield b"\\u{" + digit + b"}"


def cuttings(rng, pieces):
    """The places at which a text is cut: every set of them where it is short; else every set of ends of pieces, alone and with one place more."""
    ends = list(itertools.accumulate(map(len, pieces)))
    n = ends[-1] if ends else 0
    places = range(1, n) if n <= ALL_CUT else ends[:-1]
    for bits in itertools.product((False, True), repeat=len(places)):
        cuts = [c for c, cut in zip(places, bits) if cut]
        yield cuts
        if ALL_CUT < n:
            yield sorted({*cuts, rng.randrange(1, n)})
    if ALL_CUT < n:
        yield list(range(1, n))


def odd_question(rng, fed, last, carry):
    """The text question on a span that is as a rule none, or with slices of other lengths."""
    a = rng.choice((0, fed - last, fed, fed + 1, 4294967295, max(0, fed - rng.randint(0, 12))))
    step = b"q:%d:%d" % (a, rng.choice((0, 1, 2, fed, 4294967295)))
    return step if rng.randrange(2) else step + b":%d:%d" % (max(0, last + rng.randint(-1, 1)), max(0, carry + rng.randint(-1, 1)))


def lengths(step):
    """Those of the chunk and of the carry that a call is lent."""
    fields = step.split(b":")
    return len(bytes.fromhex(fields[1].decode().replace("-", ""))) if fields[0] == b"f" else 0, int(fields[-1])


def telling_question(rng, step, records):
    """The text question on some of the tokens that a call has handed out, on a part of that, or on a byte more on one side; seldom with a slice of
    another length."""
    bounds = [int(records[0].split(b",")[3])]
    bounds += [int(r.split(b",")[3]) + int(r.split(b",")[1]) for r in records]
    a, b = sorted(rng.choice((bounds[0], bounds[-1], rng.choice(bounds), rng.randint(bounds[0], bounds[-1]))) for _ in range(2))
    sort = rng.randrange(12)
    if sort == 0:
        return b"q:%d:%d" % (max(0, a - 1), b - a + 1)
    asked = b"q:%d:%d" % (a, b - a + (sort == 1 or a == b))
    return asked if sort != 2 else asked + b":%d:%d" % tuple(max(0, n + rng.choice((0, 0, 0, -1, 1))) for n in lengths(step))


def with_questions(rng, case, answer):
    """The history with questions on the tokens that its last accepted call has handed out, behind that and, less often, behind refusals."""
    head, *steps = case.split(b" ")[1:]
    out, call, given = [b"parts", head], None, []
    for step, said in zip(steps, answer.split(b" | ")):
        out.append(step)
        number, *records = said.split(b" ")
        if step[:1] not in b"fe":
            continue
        if number == b"0":
            call, given = step, records[1:-1]
        if given:
            out += [telling_question(rng, call, given) for _ in range(rng.randrange(5 if number == b"0" else 2))]
    return b" ".join(out)


def lender(rng):
    """How a caller lends: for each call the records of its room and the bytes of its carry."""
    room, sort, same = rng.choice((99, 99, 99, 2, 5)), rng.randrange(5), rng.randint(0, CARRY)

    def lend():
        records = room if room == 99 else rng.randint(0, room)
        if sort == 0:
            return records, same
        if sort == 1:
            return records, CARRY
        if sort == 2:
            return records, rng.randint(0, 6)
        return records, rng.randint(0, CARRY) if sort == 3 or not rng.randrange(6) else CARRY
    return lend


def behind_end(rng):
    """Calls behind the finish, as a rule none."""
    while not rng.randrange(3):
        records, carry = rng.randint(0, 2), rng.randint(0, CARRY)
        yield rng.choice((b"e:%d:%d" % (records, carry), b"f:-:%d:%d" % (records, carry), b"f:%02x:%d:%d" % (rng.randrange(256), records, carry), b"q:%d:%d" % (records, carry)))


def history(rng, profile, chunks):
    """A lexer that is fed these chunks and finished; the caller lends and alters as it likes. A call with a short room is now and then followed by the
    same one with a long room."""
    lend, steps, fed = lender(rng), [], 0
    for chunk in [*chunks, None]:
        records, carry = lend()
        head = b"e" if chunk is None else b"f:" + (chunk.hex().encode() or b"-")
        steps.append(b"%s:%d:%d" % (head, records, carry))
        if records < 9 and rng.randrange(2):
            steps.append(b"%s:99:%d" % (head, carry))
        last = len(chunk or b"")
        fed += last
        sort = rng.randrange(24)
        if sort == 0:
            steps.append(odd_question(rng, fed, last, carry))
        elif sort < 3:
            steps.append(b"a:%d:%s" % (rng.randrange(CARRY), rng.randbytes(rng.randint(1, 4)).hex().encode()))
    return b"parts %d %s" % (profile, b" ".join([*steps, *behind_end(rng)]))


def cut_at(text, cuts):
    return [text[a:b] for a, b in zip([0, *cuts], [*cuts, len(text)])]


def every_cutting(rng, length):
    """Every text of at most so many pieces of each small set, cut as `cuttings` has it."""
    for pieces in SETS:
        bare = any(b"pragma" in p for p in pieces)
        for n in range(length + 1):
            for chosen_pieces in itertools.product(pieces, repeat=n):
                for cuts in cuttings(rng, chosen_pieces):
                    for profile in (0, 1) if bare else (rng.randrange(2),):
                        yield history(rng, profile, cut_at(b"".join(chosen_pieces), cuts))


def chunks_of(rng, text):
    """A text in chunks of single bytes, of a few, or of up to forty, empty ones among them."""
    most = rng.choice((1, 3, 8, 40)) if len(text) < 100 else 40
    out, at = [], 0
    while at < len(text):
        n = 1 if most == 1 and rng.randrange(12) else rng.randint(0, most)
        out.append(text[at:at + n])
        at += n
    return out


def fault(text):
    """The place of the first bad byte or direction mark, or the end."""
    try:
        chars = text.decode()
    except UnicodeDecodeError as error:
        chars = text[:error.start].decode()
    return len(next((chars[:i] for i, c in enumerate(chars) if c in MARKS), chars).encode())


def histories(rng, count, programs):
    """Random texts in random chunks, with little behind a fault."""
    sorts = (texts(rng, count, programs), texts(rng, count, programs), texts(rng, count, programs), marked(rng, count), figures(rng, count))
    for _ in range(count):
        text = next(rng.choice(sorts))[:400]
        text = text[:fault(text) + rng.randint(1, 12)]
        profile = rng.randrange(2) if rng.randrange(50) else rng.choice((2, 3, 255, 4294967295))
        yield history(rng, profile, chunks_of(rng, text))


def short(alphabet, length):
    for n in range(length + 1):
        for pieces in itertools.product(alphabet, repeat=n):
            yield b"".join(pieces)


# The limit of `oqlist`, and words that it refuses.
MOST = 2048

REFUSED = [w.encode() for w in ("2", "9", "00", "01", "10", "0,0", "0,1", "1,", ",", "-1", "+1", "1.0", "x", "--help", "é")]


def tasks(options):
    """The beginnings of the cases that are asked of each text, and of those that the Rust is asked, with the program that answers them."""
    both = (options.release, options.debug)
    if options.listings:
        asked = [(b"oqlist -", b"tok 1", options.debug), (b"oqlist 0", b"tok 0", options.release), (b"oqlist 1", b"tok 1", options.debug)]
        asked += [(a, b"five" + b[3:], options.model) for a, b, _ in asked if options.model]
        return asked + [(b"oqlist " + word, None, None) for word in REFUSED]
    if options.digits:
        asked = [b"unescape 1", b"unescape 4"]
    elif options.bodies:
        asked = [b"unescape %d" % mode for mode in range(7)] + [b"char", b"byte"]
    else:
        asked = [(b"tok 0", b"five 0", options.model), (b"tok 1", b"five 1", options.model)] if options.model else []
        asked += [(b"tok 0", b"tok 0", options.release), (b"tok 1", b"tok 1", options.debug)]
        return asked + [(b"ident", b"ident", oracle) for oracle in both]
    return [(task, task, oracle) for oracle in both for task in asked]


def told(program, cases):
    said = subprocess.run([program], input=b"".join(c + b"\n" for c in cases), stdout=subprocess.PIPE, check=True).stdout.split(b"\n")
    if len(said) != len(cases) + 1:
        sys.exit("%s answered %d of %d cases" % (program, len(said) - 1, len(cases)))
    return [line.split(b" = ", 1)[1] for line in said[:-1]]


def answers(program, task, batch):
    return told(program, [b"%s %s" % (task, t.hex().encode() or b"-") for t in batch])


def listing(text, answer):
    """What `oqlist` prints where the Rust gives these tokens."""
    if MOST < len(text):
        return b"refused 2 0"
    number, also, *records = answer.split(b" ")
    if number != b"0":
        return b"refused " + number + b" " + also
    return b" / ".join([b"tokens " + also] + [record.replace(b",", b" ") for record in records])


def barred(text, answer):
    """The answer of the Rust, or 7 for a text that it cuts and that holds a direction mark."""
    if not answer.startswith(b"0 "):
        return answer
    chars = text.decode()
    place = next((i for i, c in enumerate(chars) if c in MARKS), None)
    return answer if place is None else b"7 %d" % len(chars[:place].encode())


# The runs of digits of a number, with no suffix: before the point, behind it, and of the exponent; and that of a hardware identifier.
RUNS = re.compile(rb"(?:0x([0-9a-fA-F_]*)|0[bo]([0-9_]*)|([0-9_]+))(?:\.([0-9_]*))?(?:[eE][+-]?([0-9_]*))?|\$([0-9_]*)")

# An underscore that has not a digit on both sides.
STRAY = re.compile(rb"(?<![0-9a-fA-F])_|_(?![0-9a-fA-F])")


def misplaced(kind, suffix, token):
    """The place in a token of its first misplaced underscore: one of a run of its digits that has not a digit of the run on both sides. 0 for none."""
    if kind not in (6, 24, *range(40, 56)):
        return 0
    runs = RUNS.fullmatch(token[:suffix or len(token)])
    for i in range(1, 7):
        stray = STRAY.search(runs[i] or b"")
        if stray:
            return runs.start(i) + stray.start()
    return 0


def whole(text, answer):
    """The same with the words that the Rust does not say: where each token starts, the lengths before it added up, and its misplaced underscore."""
    number, also, *records = answer.split(b" ")
    if number != b"0":
        return answer
    out, at = [number, also], 0
    for record in records:
        kind, length, suffix = map(int, record.split(b","))
        out.append(b"%s,%d,%d" % (record, at, misplaced(kind, suffix, text[at:at + length])))
        at += length
    return b" ".join(out)


def wanted(options, task, oracle, batch):
    """What the answers are held to."""
    if oracle is None:
        return [b"refused 1 0"] * len(batch)
    said = answers(oracle, task, batch)
    if task.startswith(b"tok"):
        said = [whole(t, barred(t, a)) for t, a in zip(batch, said)]
    return [listing(t, a) for t, a in zip(batch, said)] if options.listings else said


def compare(options, batch, turn):
    """How many cases were compared, and those that differ. Of the tasks without the Rust a batch is asked one, in turn."""
    wrong = []
    total = 0
    every = tasks(options)
    refusing = [t for t in every if t[2] is None]
    for asked, task, oracle in [t for t in every if t[2]] + refusing[turn % max(1, len(refusing)):][:1]:
        theirs = wanted(options, task, oracle, batch)
        ours = answers(options.answers, asked, batch)
        total += len(batch)
        wrong += [(b"%s %s" % (asked, t.hex()[:300].encode()), a[:300], b[:300]) for t, a, b in zip(batch, theirs, ours) if a != b]
    return total, wrong


def until_different(case, theirs, ours):
    """A history and its answers up to the first that differs."""
    a, b = theirs.split(b" | "), ours.split(b" | ")
    n = next((i for i, (x, y) in enumerate(zip(a, b)) if x != y), min(len(a), len(b))) + 1
    return b" ".join(case.split(b" ")[:n + 2]), b" | ".join(a[:n]), b" | ".join(b[:n])


def compare_histories(options, rng, batch):
    """The same for histories, which the model answers, once without questions on what is handed out and once with them."""
    batch = [with_questions(rng, c, a) for c, a in zip(batch, told(options.model, batch))]
    theirs = told(options.model, batch)
    ours = told(options.answers, batch)
    return len(batch), [until_different(c, a, b) for c, a, b in zip(batch, theirs, ours) if a != b]


def batches(stream, size):
    while True:
        batch = list(itertools.islice(stream, size))
        if not batch:
            return
        yield batch


def chosen(options, rng, programs):
    """The texts that are compared."""
    if options.digits:
        return digits()
    if options.parts:
        return itertools.chain(every_cutting(rng, options.short), histories(rng, options.random, programs))
    if options.marks:
        return itertools.chain(short(MARK_ALPHABET, options.short), marked(rng, options.random))
    if options.underscores:
        inside = (head + rest for rest in short(FIGURE_ALPHABET, options.short) for head in HEADS)
        return itertools.chain(inside, figures(rng, options.random))
    if options.bodies:
        return itertools.chain(short(BODY_ALPHABET, options.short), bodies(rng, options.random))
    fitting = [p for p in programs if len(p) <= 32000]
    return itertools.chain(fitting, short(ALPHABET, options.short), texts(rng, options.random, programs))


def main():
    parser = argparse.ArgumentParser()
    parser.add_argument("release")
    parser.add_argument("debug")
    parser.add_argument("answers")
    group = parser.add_mutually_exclusive_group()
    group.add_argument("--listings", action="store_true")
    group.add_argument("--bodies", action="store_true")
    group.add_argument("--digits", action="store_true")
    group.add_argument("--parts", action="store_true")
    kind = parser.add_mutually_exclusive_group()
    kind.add_argument("--marks", action="store_true")
    kind.add_argument("--underscores", action="store_true")
    parser.add_argument("--model")
    parser.add_argument("--short", type=int, default=3)
    parser.add_argument("--random", type=int, default=500000)
    parser.add_argument("--seed", type=int, default=1)
    parser.add_argument("--programs")
    options = parser.parse_args()
    if (options.marks or options.underscores or options.model) and (options.bodies or options.digits):
        parser.error("--marks, --underscores and --model go with texts, not with bodies")
    if options.parts and (options.marks or options.underscores or not options.model):
        parser.error("--parts needs --model, and has marks and underscores of its own")
    programs = [p.read_bytes() for p in sorted(pathlib.Path(options.programs).iterdir())] if options.programs else []
    total, wrong, rng = 0, [], random.Random(options.seed)
    for turn, batch in enumerate(batches(chosen(options, rng, programs), 20000)):
        n, w = compare_histories(options, rng, batch) if options.parts else compare(options, batch, turn)
        total += n
        wrong += w
    for case, theirs, ours in sorted(wrong, key=lambda w: len(w[0]))[:10] if options.parts else wrong[:10]:
        print(case.decode()[:3000], "\nwanted:", theirs.decode()[:3000], "\nport:", ours.decode()[:3000])
    print(f"{total} cases compared, {len(wrong)} different")
    sys.exit(1 if wrong else 0)


if __name__ == "__main__":
    main()
