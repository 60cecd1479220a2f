#!/usr/bin/env python3
"""inputs.py PROGRAMS OUT [BYTES]: writes the inputs of the measurement into OUT, each of about BYTES bytes (default 1,000,000; the programs and
the lines eight times as many), valid UTF-8.

PROGRAMS is the folder of programs among the vectors. They are 4,572 bytes again and again, whose turns a processor learns; the lines are those of
programs too, and do not repeat. What is generated comes from fixed seeds, the lines from one of their own.
"""
import os, random, sys

programs, out = sys.argv[1], sys.argv[2]
size = int(sys.argv[3]) if len(sys.argv) > 3 else 1_000_000
os.makedirs(out, exist_ok=True)


def write(name, pieces, least=size):
    """pieces: a function that makes the next piece; whole pieces only."""
    parts, n = [], 0
    while n < least:
        p = pieces().encode()
        parts.append(p)
        n += len(p)
    with open(os.path.join(out, name), "wb") as f:
        f.write(b"".join(parts))


def joined():
    text = []
    for f in sorted(os.listdir(programs)):
        b = open(os.path.join(programs, f), "rb").read().decode()
        # broken.qasm ends within a quoted text: closed here, else every program behind it would be read inside out
        text.append(b + '"\n' if f == "broken.qasm" else b)
    return "".join(text)


r = random.Random(20260)
low, all_ = "abcdefghijklmnopqrstuvwxyz", "abcdefghijklmnopqrstuvwxyzABCDEFGHIJKLMNOPQRSTUVWXYZ0123456789_"
greek = [chr(c) for c in range(0x3B1, 0x3CA)] + [chr(c) for c in range(0x391, 0x3AA) if c != 0x3A2]
marks = ";,.(){}[]~?:=!<>-&|+*^%"
words = "prepare the two qubits and measure them after a delay of some time; then reset".split()

whole = joined()
write("a-programs", lambda: whole, 8 * size)


# ---- lines of programs, each made anew
draw = random.Random(20261)
stems = "q c a b anc reg state theta phi angle shots result cal tmp left right data flag n count target control phase bell ghz qft syndrome round".split()
gates = "h x y z s t sx cx cz cy ch swap ccx id rx ry rz p crz cp u2 u3 cswap".split()
units = ["ns", "us", "ms", "s", "dt", "\u00b5s", "im"]
types = "int[32] uint[16] float[64] angle[20] complex[float[32]] bool duration".split()


def name():
    k = draw.randrange(24)
    if k == 0:
        return draw.choice(greek) + draw.choice(["", str(draw.randrange(10))])
    return draw.choice(stems) + ("_" + draw.choice(stems) if k < 8 else "") + (str(draw.randrange(100)) if k % 3 == 0 else "")


def value():
    n = draw.randrange(10 ** draw.randrange(1, 6))
    k = draw.randrange(10)
    return [str(n % 20), str(n), f"{n % 100}.{draw.randrange(1000)}", f"pi/{2 << draw.randrange(5)}", f"\u03c0 * {n % 8}", f"{n % 10}.{n}e-{draw.randrange(1, 9)}", f"0x{n:X}", f"0b{n:b}", f"{n}{draw.choice(units)}", name()][k]


def place():
    k = draw.randrange(5)
    return name() if k == 0 else f"{name()}[{draw.randrange(40)}]" if k < 4 else f"{name()}[{draw.randrange(8)}:{draw.randrange(8, 40)}]"


def act():
    k = draw.randrange(10)
    if k < 3:
        return f"{draw.choice(gates)} {place()};"
    if k < 5:
        return f"{draw.choice(gates)} {place()}, {place()};"
    if k < 7:
        return f"{draw.choice(gates)}({value()}) {place()};"
    return [f"{draw.choice(['ctrl', 'inv', 'pow(2)', 'negctrl'])} @ {draw.choice(gates)} {place()}, {place()};", f"{place()} = measure {place()};", f"delay[{draw.randrange(1000)}{draw.choice(units[:5])}] {place()};"][k - 7]


def said():
    body = " ".join(draw.choice(words) for _ in range(draw.randrange(2, 12)))
    return draw.choice([f"// {body}", f"// {body}", f"//{body} {draw.randrange(1000)}", f"/* {body} */", f"/* {body}\n * {body} */"])


def block(indent):
    k = draw.randrange(6)
    head = [f"if ({name()} == {value()})", f"for uint {draw.choice('ijk')} in [0:{draw.randrange(60)}]", f"while ({name()} < {value()})", f"gate {name()}({name()}) {name()}, {name()}", f"def {name()}(qubit {name()}, {draw.choice(types)} {name()}) -> bit", "box"][k]
    inner = "".join(line(indent + 1) for _ in range(draw.randrange(1, 5)))
    return f"{head} {{\n{inner}{'    ' * indent}}}"


def line(indent=0):
    k = draw.randrange(100)
    if k < 50:
        text = act()
    elif k < 62:
        text = said() if k < 58 else act() + " " + said()
    elif k < 72:
        text = f"{draw.choice(types)} {name()} = {value()} {draw.choice('+-*/%')} {value()};"
    elif k < 80:
        text = f"{name()} {draw.choice(['=', '+=', '-=', '<<='])} {value()};"
    elif k < 86:
        text = [f"qubit[{draw.randrange(1, 40)}] {name()};", f"bit[8] {name()} = \"{draw.randrange(256):08b}\";", f"bit {name()};"][k % 3]
    elif k < 88:
        text = [f"#pragma {name()} {value()}", f"@{name()} {value()}"][k % 2]
    elif k < 94:
        return "\n"
    else:
        text = act() if indent == 3 else block(indent)
    return f"{'    ' * indent}{text}\n"


write("b-lines", line, 8 * size)
write("c-ascii-names", lambda: r.choice(low) + "".join(r.choice(all_) for _ in range(r.randrange(0, 14))) + " ")
write(
    "d-greek",
    lambda: r.choice(["".join(r.choice(greek) for _ in range(r.randrange(1, 9))), f"{r.randrange(1, 1000)}\u00b5s", "\u03bc" + str(r.randrange(100)), "\u00b5"]) + r.choice([" ", "\n", ";", ", "]),
)


def comment():
    body = " ".join(r.choice(words) for _ in range(r.randrange(3, 14)))
    k = r.randrange(8)
    if k < 4:
        return "// " + body + "\n"
    if k < 6:
        return "/* " + body + " */\n"
    if k == 6:
        return "/* " + body + "\n * " + body + "\n /* inner */ * */\n"
    return "// \u03b8 = \u03c0/2: " + body + "\n"


write("e-comments", comment)


def quoted():
    k = r.randrange(6)
    if k < 2:
        return '"' + "".join(r.choice("01") for _ in range(r.randrange(1, 40))) + '" '
    if k == 2:
        return '"' + "_".join("".join(r.choice("01") for _ in range(4)) for _ in range(r.randrange(1, 8))) + '"\n'
    if k == 3:
        return '"' + " ".join(r.choice(words) for _ in range(r.randrange(1, 9))) + '" '
    if k == 4:
        return '"' + r.choice(words) + '\\"' + r.choice(words) + '\\\\' + r.choice(words) + '"\n'
    return '"\u03b8 ' + r.choice(words) + '" '


write("f-quotes", quoted)
write("g-marks", lambda: r.choice(marks))


def number():
    k = r.randrange(9)
    n = r.randrange(10 ** r.randrange(1, 9))
    s = [str(n), str(n), f"{n}.{r.randrange(1000)}", f"{n}e{r.choice(['', '+', '-'])}{r.randrange(20)}", f"0x{n:x}", f"0b{n:b}", f"0o{n:o}", f"{n}{r.choice(['ns', 'us', 'ms', 's', 'dt', 'im'])}", f"{n % 1000}_{n % 7}00"][k]
    return s + r.choice([" ", "\n"])


write("h-numbers", number)
write("i-white-space", lambda: r.choice([" ", "    ", "\n", "\n\n", "\t", "        "]))
cjk = [chr(c) for c in range(0x4E00, 0x4F00)]
write("j-cjk", lambda: "".join(r.choice(cjk) for _ in range(r.randrange(1, 7))) + r.choice([" ", ";"]))
write("k-emoji", lambda: "".join(chr(r.randrange(0x1F600, 0x1F640)) for _ in range(r.randrange(1, 5))) + " ")

# comments and quoted texts with dashes, dots and quotes of three bytes, which begin with E2 as the direction marks do, and comments of CJK; from a seed
# of their own
drawn = random.Random(20262)


def dashes():
    body = "".join(drawn.choice(words) + drawn.choice(["\u2026 ", " \u2014 ", "\u2019 ", " \u201c", "\u201d ", "\u2010", " "]) for _ in range(drawn.randrange(3, 14)))
    return drawn.choice([f"// {body}\n", f"/* {body} */\n", f'"{body}" '])


write("l-dashes", dashes)
write("m-cjk-comments", lambda: "// " + "".join(drawn.choice(cjk) for _ in range(drawn.randrange(5, 40))) + "\n")

# bodies of literals, each with its mode first in its name: 1 is Str, 4 ByteStr
bodies = os.path.join(out, "bodies")
os.makedirs(bodies, exist_ok=True)
escapes = ["\\n", "\\r", "\\t", "\\\\", "\\'", '\\"', "\\0", "\\x41", "\\u{3b8}", "\\u{1F6_00}", "\\\n    ", "\\q"]
write("bodies/1-plain", lambda: r.choice(words) + " ")
write("bodies/1-escapes", lambda: r.choice(escapes) + r.choice(words)[: r.randrange(3)])
write("bodies/1-greek", lambda: "".join(r.choice(greek) for _ in range(r.randrange(1, 9))) + " ")
write("bodies/4-bytes", lambda: r.choice(words) + r.choice([" ", " ", "\\n", "\\x7F", "\\xFF", "\\\\", "\\0"]))


def numbered():
    c = r.choice([r.randrange(0xD800), r.randrange(0xE000, 0x110000)])
    return r.choice(["\\x%02x", "\\x%02X"]) % r.randrange(0x80) if r.randrange(2) else r.choice(["\\u{%x}", "\\u{%X}"]) % c


write("bodies/1-numbers", numbered)
for folder in (out, bodies):
    for f in sorted(os.listdir(folder)):
        if os.path.isfile(os.path.join(folder, f)):
            print(f, os.path.getsize(os.path.join(folder, f)))
