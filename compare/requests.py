#!/usr/bin/env python3
"""requests.py list: the committed requests of crates/vectors/stdin, in order.
requests.py differences: those of crates/vectors/args, at which the Rust answers otherwise.
requests.py KIND SEED N: N generated requests of a kind (numbers, texts or columns), the same for the same seed.

All print one request a line, in the form that docs/FORMAT.md gives under 'Requests'.
"""
import itertools
import random
import sys

U_MAX = 2**64 - 1
I_MIN, I_MAX = -(2**63), 2**63 - 1


def uleb(n, pad=0):
    """The bytes of n, with so many needless ones behind."""
    out = []
    while n >= 128:
        out.append(n % 128 + 128)
        n //= 128
    out.append(n)
    for _ in range(pad):
        out[-1] += 128
        out.append(0)
    return bytes(out)


def sleb(n, pad=0):
    out = []
    while not -64 <= n < 64:
        out.append(n % 128 + 128)
        n >>= 7
    out.append(n % 128)
    for _ in range(pad):
        out[-1] += 128
        out.append(127 if n < 0 else 0)
    return bytes(out)


def hexed(b):
    return b.hex() or "-"


def boundaries():
    """Every power of two and of 128 that fits, one less and one more, and 0."""
    out = {0, 1, U_MAX}
    for k in range(65):
        out.update((2**k - 1, 2**k, 2**k + 1))
    return sorted(n for n in out if n <= U_MAX)


def number_list():
    # DWARF's own examples
    for n in (2, 127, 128, 129, 130, 12857):
        yield f"wuleb {n}"
        yield f"uleb {uleb(n).hex()}"
    for n in (2, -2, 127, -127, 128, -128, 129, -129):
        yield f"wsleb {n}"
        yield f"sleb {sleb(n).hex()}"
    # each boundary, written and read, with bytes behind it
    for n in boundaries():
        yield f"wuleb {n}"
        yield f"uleb {uleb(n).hex()}"
        yield f"uleb {uleb(n).hex()}80ff00"
    signed = sorted({s * n for n in boundaries() for s in (1, -1) if I_MIN <= s * n <= I_MAX})
    for n in signed:
        yield f"wsleb {n}"
        yield f"sleb {sleb(n).hex()}"
        yield f"sleb {sleb(n).hex()}80ff00"
    # just outside
    for n in (U_MAX + 1, -1, 2**80, 10**30):
        yield f"wuleb {n}"
    for n in (I_MAX + 1, I_MIN - 1, 10**30):
        yield f"wsleb {n}"
    # every single byte, and two bytes around each edge
    for b in range(256):
        yield f"uleb {b:02x}"
        yield f"sleb {b:02x}"
    for a in (0x00, 0x3F, 0x40, 0x7F, 0x80, 0x81, 0xBE, 0xBF, 0xC0, 0xC1, 0xFE, 0xFF):
        for b in (0x00, 0x01, 0x02, 0x3E, 0x3F, 0x40, 0x41, 0x7E, 0x7F, 0x80, 0x81, 0xBF, 0xC0, 0xFF):
            yield f"uleb {a:02x}{b:02x}"
            yield f"sleb {a:02x}{b:02x}"
    # ten bytes: every tenth byte behind nine of a few shapes; then eleven and twelve
    for head in ("80" * 9, "ff" * 9, "80" * 8 + "ff", "80" * 8 + "bf", "80" * 8 + "c0", "ff" * 8 + "bf"):
        for b in list(range(0, 8)) + [0x3E, 0x3F, 0x40, 0x41, 0x7C, 0x7D, 0x7E, 0x7F, 0x80, 0x81, 0xFE, 0xFF]:
            yield f"uleb {head}{b:02x}"
            yield f"sleb {head}{b:02x}"
        for tail in ("8000", "8001", "807f", "8080", "ff7f", "80807f"):
            yield f"uleb {head}{tail}"
            yield f"sleb {head}{tail}"
    # overlong forms of each length, by one byte and by more
    for k in range(0, 63, 7):
        for n in (0, 1, 63, 64, 127, 2**k, 2**k + 5):
            for pad in (1, 2, 9, 10):
                yield f"uleb {uleb(n, pad).hex()}"
                yield f"sleb {sleb(n, pad).hex()}"
                yield f"sleb {sleb(-n - 1, pad).hex()}"
    # cut short at each length
    for k in range(1, 12):
        for byte in ("80", "ff", "c0"):
            yield f"uleb {byte * k}"
            yield f"sleb {byte * k}"
    yield "uleb -"
    yield "sleb -"
    # malformed requests
    yield from ("uleb", "uleb 7", "uleb 7g", "uleb 7f 01", "sleb 0x7f", "wuleb", "wuleb 1.0", "wuleb +5", "wuleb -0",
                "wsleb -0", "wsleb +7", "wsleb --7", "wuleb 007", "wuleb 1 2", "uleB 7f", "ULEB 7f", "nothing", "  uleb   7f  ", "\tsleb\t7f", "uleb 7F", "wuleb ٣")


def text_list():
    good = ["", "A", "plain words", "\x00", "\x7f", "\u0080", "\u07ff", "\u0800", "\ud7ff", "\ue000", "\ufffd", "\uffff", "\U00010000", "\U0010ffff",
            "Schließzylinder für die Tür", "ключ от двери", "钥匙", "🔑🚪", "ascii before é and after", "a" * 15 + "é", "a" * 16 + "é", "é" + "a" * 40, "aé" * 20]
    for t in good:
        b = t.encode()
        yield f"utf8 {hexed(b)}"
        # cut at each place, and a wrong byte behind
        for k in range(1, min(len(b), 6)):
            yield f"utf8 {hexed(b[:k])}"
            yield f"utf8 {hexed(b[k:])}"
        for wrong in (0x80, 0xBF, 0xC0, 0xF5, 0xFF):
            yield f"utf8 {hexed(b + bytes([wrong]))}"
    # every first byte, alone and with each kind of second byte, and tails behind
    seconds = (0x00, 0x41, 0x7F, 0x80, 0x8F, 0x90, 0x9F, 0xA0, 0xBF, 0xC0, 0xC2, 0xE0, 0xED, 0xF0, 0xF4, 0xFF)
    for a in range(256):
        yield f"utf8 {a:02x}"
        for b in seconds if a >= 0xC0 else (0x41, 0x80):
            yield f"utf8 {a:02x}{b:02x}"
            if a >= 0xE0:
                yield f"utf8 {a:02x}{b:02x}80"
                yield f"utf8 {a:02x}{b:02x}80bf"
                yield f"utf8 {a:02x}{b:02x}7f80"
                yield f"utf8 {a:02x}{b:02x}80c0"
    # surrogates and what lies beside them, overlong forms, past the last character
    for form in ("ed9fbf", "eda080", "edafbf", "edb080", "edbfbf", "ee8080", "c080", "c1bf", "c280", "e08080", "e09fbf", "e0a080", "f0808080", "f08fbfbf", "f0908080", "f48fbfbf", "f4908080", "f5808080", "f8888080 80".replace(" ", ""), "fc8480808080"):
        for before in ("", "41", "61" * 15, "61" * 16, "c3a9" * 8):
            yield f"utf8 {before}{form}"
            yield f"utf8 {before}{form}42"
    yield from ("utf8", "utf8 4", "utf8 zz", "utf8 41 42", "utf8 -")


def random_text(r):
    kinds = ("ascii", "mixed", "bytes", "damaged", "long")
    kind = r.choice(kinds)
    if kind == "bytes":
        b = bytes(r.choice((0x41, 0x7F, 0x80, 0x8F, 0x90, 0x9F, 0xA0, 0xBF, 0xC0, 0xC1, 0xC2, 0xDF, 0xE0, 0xE1, 0xEC, 0xED, 0xEE, 0xEF, 0xF0, 0xF1, 0xF3, 0xF4, 0xF5, 0xFF)) for _ in range(r.randrange(7)))
        return "61" * r.choice((0, 0, 13, 14, 15, 16, 17)) + b.hex()
    chars = []
    for _ in range(r.randrange(24 if kind != "long" else 120)):
        top = 0x80 if kind == "ascii" else r.choice((0x80, 0x80, 0x800, 0x10000, 0x110000))
        c = r.randrange(top)
        chars.append("?" if 0xD800 <= c < 0xE000 else chr(c))
    b = bytearray("".join(chars).encode())
    if kind == "damaged" and b:
        what = r.randrange(3)
        k = r.randrange(len(b))
        if what == 0:
            b[k] ^= 1 << r.randrange(8)
        elif what == 1:
            del b[k:]
        else:
            del b[k]
    return b.hex()


def integer(r, low, high):
    kind = r.randrange(3)
    if kind == 0:
        n = r.getrandbits(r.randrange(65)) * r.choice((1, -1))
    elif kind == 1:
        n = r.choice((1, -1)) * (2 ** r.randrange(65)) + r.randrange(-2, 3)
    else:
        n = r.randrange(-300, 300)
    return min(max(n, low), high)


def random_number(r):
    kind = r.randrange(6)
    signed = r.random() < 0.5
    name = "sleb" if signed else "uleb"
    if kind == 0:
        return f"wsleb {integer(r, I_MIN, I_MAX)}" if signed else f"wuleb {abs(integer(r, -U_MAX, U_MAX))}"
    if kind == 1:
        return f"{name} {hexed(r.randbytes(r.randrange(13)))}"
    if kind == 2:
        b = bytes(x | 0x80 for x in r.randbytes(r.randrange(11))) + r.randbytes(r.randrange(3))
        return f"{name} {hexed(b)}"
    n = integer(r, I_MIN, I_MAX) if signed else abs(integer(r, -U_MAX, U_MAX))
    b = bytearray((sleb if signed else uleb)(n, r.choice((0, 0, 0, 1, 2))))
    if kind == 4:
        del b[r.randrange(len(b) + 1):]
    if kind == 5:
        b[r.randrange(len(b))] ^= 1 << r.randrange(8)
    return f"{name} {hexed(bytes(b))}" + (r.randbytes(r.randrange(3)).hex() if b else "")


# ---- columns. Kinds: runs of unsigned and signed numbers and of texts, differences, flags, flags that may all be false
KINDS = "uisdbm"


def runs_of(*parts):
    """A column of runs: (n, code) is a run of n, a list of codes a literal run, and a number a null run."""
    out = b""
    for part in parts:
        if isinstance(part, int):
            out += b"\0" + uleb(part)
        elif isinstance(part, list):
            out += sleb(-len(part)) + b"".join(part)
        else:
            out += sleb(part[0]) + part[1]
    return out


def text_code(b):
    return uleb(len(b)) + b


def all_words(alphabet, most):
    for n in range(most + 1):
        yield from itertools.product(alphabet, repeat=n)


def short_columns():
    """All columns of few bytes."""
    for kind in KINDS:
        for word in all_words((0x00, 0x01, 0x02, 0x7E, 0x7F, 0x80, 0xFF), 3):
            yield f"rcol {kind} {hexed(bytes(word))}"
    for kind in "usd":
        for word in itertools.product((0x00, 0x01, 0x02, 0x7E, 0x7F), repeat=4):
            yield f"rcol {kind} {hexed(bytes(word))}"
    # texts of up to three bytes behind a literal run's header, and a run's
    for word in all_words((0x00, 0x01, 0x02, 0x61, 0xC3, 0xA9), 3):
        yield f"rcol s 7f{bytes(word).hex()}"
        yield f"rcol s 02{bytes(word).hex()}"


def long_runs():
    sizes = (1, 2, 63, 64, 65, 127, 128, 129, 254, 255, 256, 257, 8191, 8192, 2**31, 2**32, 2**62, I_MAX - 1, I_MAX)
    elements = {"u": uleb(300), "i": sleb(-300), "s": text_code(b"ab"), "d": sleb(-2)}
    for kind, code in elements.items():
        for n in sizes:
            # a run, a null run, and headers of literal runs that are too long for what follows
            for b in (sleb(n) + code, b"\0" + uleb(n), b"\0" + uleb(n) + sleb(2) + code, sleb(-n) + code, sleb(-n)):
                yield f"rcol {kind} {b.hex()}"
        for b in (b"\0\0", b"\0\0" + sleb(2) + code, sleb(-3) + code * 3 + b"\0\0\0\0", sleb(1) + code, sleb(2) + code + sleb(2) + code, sleb(-1) + code + sleb(-1) + code, b"\0\1\0\1" + sleb(2) + code):
            yield f"rcol {kind} {b.hex()}"
        # the last places that are told: an element, the end or a fault
        for n in (254, 255, 256):
            for tail in (b"", sleb(1) + code, b"\x80", b"\0", b"\2", b"\0\1"):
                yield f"rcol {kind} {(sleb(n) + code + tail).hex()}"
                yield f"rcol {kind} {(sleb(-n) + code * n + tail).hex()}"
        # headers that are refused, at the start and behind a run
        for head in (sleb(2, 1), sleb(-2, 1), sleb(0, 1), b"\0" + uleb(2, 1), sleb(5, 9), b"\x80" * 9, b"\x80" * 10, b"\xff" * 10, b"\xff" * 9 + b"\1", b"\0" + b"\xff" * 9 + b"\2", b"\0" + b"\x80" * 9, b"\0", sleb(I_MAX), sleb(I_MIN + 1)):
            yield f"rcol {kind} {(head + code).hex()}"
            yield f"rcol {kind} {head.hex()}"
            yield f"rcol {kind} {(sleb(3) + code + head).hex()}"
    for kind in "bm":
        for n in sizes + (2**63, U_MAX - 1, U_MAX):
            for b in (uleb(n), b"\0" + uleb(n), uleb(n) + b"\2", uleb(n) + b"\x80", b"\0\0" + uleb(n), uleb(n, 1)):
                yield f"rcol {kind} {b.hex()}"
        for b in ("00", "0000", "000000", "00000001", "010001", "01010100", "8000", "0180", "ff" * 9 + "02", "ff" * 10, "02" * 20):
            yield f"rcol {kind} {b}"


def elements_list():
    """Elements of each kind at their edges, and columns cut at each place."""
    numbers = (0, 1, 63, 64, 127, 128, 2**14, 2**32, 2**56, I_MAX - 1, I_MAX)
    for n in numbers + (2**63, U_MAX - 1, U_MAX):
        yield f"rcol u {runs_of((2, uleb(n)), 1, [uleb(n), uleb(0)]).hex()}"
        yield f"rcol u {runs_of([uleb(5), uleb(n, 1)]).hex()}"
    for n in sorted({*numbers, *(-n for n in numbers), -65, -128, -129, I_MIN}):
        yield f"rcol i {runs_of((2, sleb(n)), 1, [sleb(n), sleb(0)]).hex()}"
        yield f"rcol i {runs_of([sleb(5), sleb(n, 1)]).hex()}"
        # sums that saturate, and what comes behind them
        for m in (0, 1, -1, I_MAX, I_MIN):
            yield f"rcol d {runs_of([sleb(n), sleb(m), sleb(-1), sleb(1)]).hex()}"
            yield f"rcol d {runs_of((3, sleb(n)), 2, (3, sleb(m)), [sleb(-n if n > I_MIN else 0)]).hex()}"
            yield f"wcol d {n} {m} {n} _ {m} 0"
    texts = ("", "a", "name", "\0", "\x7f", "\u0080", "\u07ff", "\u0800", "\ud7ff", "\uffff", "\U00010000", "\U0010ffff", "Tür", "ключ", "x" * 63, "x" * 127, "x" * 128, "ü" * 200)
    for t in texts:
        b = t.encode()
        yield f"rcol s {runs_of((2, text_code(b)), 1, [text_code(b), text_code(b'')]).hex()}"
        yield f"rcol s {runs_of([uleb(len(b), 1) + b]).hex()}"
        yield f"wcol s n{b.hex()} n{b.hex()} _ n{b.hex()} n"
    for b in (b"\x80", b"\xc3", b"\xc0\x80", b"\xed\xa0\x80", b"\xf4\x90\x80\x80", b"a\xff", b"\xe9\x92", b"\xf0\x9f\x94"):
        for code in (text_code(b), text_code(b + b"a"), uleb(len(b) + 1) + b):
            yield f"rcol s {runs_of([text_code(b'a'), code]).hex()}"
            yield f"rcol s {runs_of((2, code)).hex()}"
    for n in (1, 2, 127, 128, 2**31, 2**32, I_MAX, 2**63, U_MAX):
        yield f"rcol s {(sleb(1) + uleb(n)).hex()}"
        yield f"rcol s {(sleb(-2) + text_code(b'a') + uleb(n) + b'b').hex()}"
    whole = {
        "u": runs_of((3, uleb(300)), 2, [uleb(1), uleb(2**40)], 1, (2, uleb(U_MAX))),
        "i": runs_of((3, sleb(-300)), 2, [sleb(1), sleb(-(2**40))], 1, (2, sleb(-I_MAX))),
        "s": runs_of((3, text_code("Tür".encode())), 2, [text_code(b"name"), text_code("钥匙".encode())], 1, (2, text_code(b""))),
        "d": runs_of((3, sleb(-300)), 2, [sleb(1), sleb(-(2**40))], 1, (2, sleb(I_MAX))),
        "b": b"\0" + uleb(3) + uleb(200) + uleb(1) + uleb(2**40),
        "m": b"\0" + uleb(3) + uleb(200) + uleb(1) + uleb(2**40),
    }
    for kind, b in whole.items():
        for k in range(len(b) + 1):
            yield f"rcol {kind} {hexed(b[:k])}"
            yield f"rcol {kind} {hexed(b[k:])}"
    # asked to go on, where there is no fault
    for calls in (0, 1, 5):
        for kind in "uisd":
            yield f"rcolx {kind} {calls} {whole[kind].hex()}"
        yield f"rcolx u {calls} -"
        yield f"rcolx b {calls} 010203"
    for kind in KINDS:
        yield f"rcolx {kind} 0 80"


def written_lists():
    """All lists of few items, and longer runs."""
    for kind, items, most in (("u", "_ 0 1", 5), ("i", "_ -1 0", 4), ("d", "_ 1 2 3", 4), ("s", "_ n n61", 4), ("b", "0 1", 7), ("m", "0 1", 7)):
        for word in all_words(items.split(), most):
            yield " ".join((f"wcol {kind}", *word))
    for n in (62, 63, 64, 65, 127, 128, 129, 300):
        for kind, one, other in (("u", "5", "6"), ("i", "-5", "6"), ("s", "n61", "n62"), ("d", "5", "6"), ("b", "0", "1"), ("m", "0", "1")):
            two = f"{one} {other}"
            many = [" ".join([one] * n), " ".join([two] * (n // 2)), " ".join([two] * (n // 2)) + f" {other} {one}", " ".join([other] * n) + f" {two}"]
            if kind in "uisd":
                many += [" ".join(["_"] * n), " ".join(["_"] * n) + f" {one}", f"{one} " + " ".join(["_"] * n), " ".join([two] * (n // 2)) + " _ _ " + " ".join([two] * (n // 2))]
            for items in many:
                yield f"wcol {kind} {items}"
        yield f"wcol d {' '.join(str(k * k) for k in range(n))}"
        yield f"wcol d {' '.join(str(3 * k) for k in range(n))}"
        yield f"wcol u {' '.join(str(k) for k in range(n))}"
    for n in boundaries():
        yield f"wcol u {n} {n} _ {n} 0 {n}"
        if n <= I_MAX:
            yield f"wcol i {n} {-n} _ {-n} {-n} 0"
            yield f"wcol d {n} {-n} _ {n} {n} 0"
    yield f"wcol d {I_MIN} {I_MAX} {I_MIN} 0 {I_MIN} {I_MIN}"


def malformed_columns():
    yield from ("rcol", "rcolx", "wcol", "rcolx u", "rcol u 0", "rcol u 7g", "rcol u zz", "rcolx u 1 0", "rcolx u 1 zz", "wcol x 1", "wcol U 1", "wcol u -1", f"wcol u {U_MAX + 1}", "wcol u n61", "wcol u 1 2 x", "wcol u __", "wcol i 1.5", f"wcol i {I_MAX + 1}", f"wcol i {I_MIN - 1}", "wcol d x", "wcol d 1 -", f"wcol d {I_MIN - 1}", "wcol s 61", "wcol s n6", "wcol s nzz", "wcol s nff", "wcol s n61 nc3", "wcol s N61", "RCOL u 00", "  wcol   u  1\t2  _ ", "\trcol\tu\t0105", "wcol u +5 007", "wcol i -0 +3", "rcol u 7FFF01", "wcol s nC3A9")


def column_list():
    for part in (short_columns, long_runs, elements_list, written_lists, malformed_columns):
        yield from part()


def difference_list():
    """Where the Rust answers otherwise, class by class, the smallest request of each class first."""
    literal, null = sleb(I_MIN), b"\0" + uleb(2**63)
    # after a fault, asked to go on: it stays there and tells the fault again; ours is at its end
    for kind in KINDS:
        for calls in (1, 6):
            yield f"rcolx {kind} {calls} 80"
    for b in ("0080", "000080", "8000", "7f0503", "7f0580", "7e058000", "02058000", "7e01" + literal.hex()):
        for kind in "uid":
            if (kind, b[:4]) not in (("i", "7e01"), ("d", "7e01")):
                yield f"rcolx {kind} 6 {b}"
    for b in ("7e016101ff0161", "7e01610261", "02016180", "0061ff"):
        yield f"rcolx s 6 {b}"
    for b in ("0180", "010280", "018000"):
        for kind in "bm":
            yield f"rcolx {kind} 6 {b}"
    # after a fault in the element of a run, asked to go on: it tells the element before, or a null, as often as the
    # run is long
    for kind in "uisd":
        for calls in (1, 6):
            yield f"rcolx {kind} {calls} 01"
    for b in ("0280", "010502", "020503", "02050380"):
        for kind in "uid":
            yield f"rcolx {kind} 6 {b}"
    for b in ("0102", "010261", "0102ffff", "01016101ff0162", "02016103ff"):
        yield f"rcolx s 6 {b}"
    # flags that may all be false, asked for more than one call: nulls without end behind the last flag
    for b in ("00", "01", "0002", "010203"):
        for calls in (1, 6):
            yield f"rcolx m {calls} {b}"
    # the header -2^63: a literal run of 2^63 elements
    for kind, element in (("u", "05"), ("i", "05"), ("d", "05"), ("s", "0161")):
        for before, behind in itertools.product(("", "02" + element, "7f" + element, "0001"), ("", element, element * 3)):
            yield f"rcol {kind} {before}{literal.hex()}{behind}"
        yield f"rcolx {kind} 2 {literal.hex()}{element}"
    # null runs of 2^63 and more: nulls, from a count below zero
    for kind, element in (("u", "05"), ("i", "05"), ("d", "05"), ("s", "0161")):
        for n in (2**63, 2**63 + 1, U_MAX - 1, U_MAX):
            for before in ("", "02" + element, "0001"):
                yield f"rcol {kind} {before}00{uleb(n).hex()}"
            yield f"rcol {kind} 00{uleb(n).hex()}02{element}"
        yield f"rcolx {kind} 2 {null.hex()}"


def random_element(r, kind):
    if kind == "s":
        b = bytes.fromhex(random_text(r)) if r.random() < 0.1 else r.choice((b"", b"a", b"b", b"ab", "Tür".encode(), b"x" * r.randrange(140)))
        return text_code(b)
    if r.random() < 0.6:
        n = r.randrange(-3, 4)
        return uleb(abs(n)) if kind == "u" else sleb(n)
    if kind == "u":
        return uleb(abs(integer(r, -U_MAX, U_MAX)))
    return sleb(integer(r, I_MIN, I_MAX))


def run_length(r):
    kind = r.random()
    if kind < 0.75:
        return r.randrange(5)
    return r.randrange(1, 80) if kind < 0.95 else abs(integer(r, I_MIN, I_MAX))


def random_run(r, kind):
    if kind in "bm":
        return uleb(run_length(r))
    what = r.random()
    if what < 0.3:
        return b"\0" + uleb(run_length(r))
    if what < 0.65:
        return sleb(max(run_length(r), 1)) + random_element(r, kind)
    n = r.randrange(1, 6)
    return sleb(-n) + b"".join(random_element(r, kind) for _ in range(n))


def random_bytes(r, kind):
    if r.random() < 0.15:
        return bytes(r.choice((0, 0, 1, 2, 3, 0x3F, 0x40, 0x61, 0x7D, 0x7E, 0x7F, 0x80, 0x81, 0xC3, 0xA9, 0xFF)) for _ in range(r.randrange(16)))
    b = bytearray(b"".join(random_run(r, kind) for _ in range(r.randrange(1, 7))))
    for _ in range(r.choice((0, 0, 1, 1, 2))):
        k = r.randrange(len(b) + 1)
        what = r.randrange(4)
        if what == 0:
            del b[k:]
        elif what == 1:
            del b[k:k + 1]
        elif what == 2:
            b.insert(k, r.choice((0, 1, 2, 0x7F, 0x80, 0xFF, r.randrange(256))))
        elif k < len(b):
            b[k] ^= 1 << r.randrange(8)
    return bytes(b)


def random_item(r, kind, last):
    if last and r.random() < 0.4:
        return r.choice(last[-2:])
    if kind in "bm":
        return r.choice("01") if r.random() < 0.9 else "0"
    if r.random() < 0.25:
        return "_"
    if kind == "s":
        return "n" + r.choice(("", "61", "62", "c3a9", "61" * r.randrange(140)))
    if r.random() < 0.6:
        n = r.randrange(-3, 4)
        return str(abs(n) if kind == "u" else n)
    return str(abs(integer(r, -U_MAX, U_MAX)) if kind == "u" else integer(r, I_MIN, I_MAX))


def random_column(r):
    kind = r.choice(KINDS)
    what = r.random()
    if what < 0.4:
        items = []
        for _ in range(r.randrange(12) if r.random() < 0.9 else r.randrange(200)):
            items.append(random_item(r, kind, items))
        if r.random() < 0.1 and items:
            items = [x for x in items for _ in range(r.choice((1, 1, 2, 70)))]
        return " ".join((f"wcol {kind}", *items))
    b = hexed(random_bytes(r, kind))
    return f"rcolx {kind} {r.randrange(4)} {b}" if what < 0.45 else f"rcol {kind} {b}"


def main():
    lists = {"list": [number_list, text_list, column_list], "differences": [difference_list]}
    if sys.argv[1] in lists:
        for line in dict.fromkeys(itertools.chain.from_iterable(part() for part in lists[sys.argv[1]])):
            print(line)
        return
    make = {"numbers": random_number, "texts": lambda r: f"utf8 {random_text(r) or '-'}", "columns": random_column}[sys.argv[1]]
    r = random.Random(int(sys.argv[2]))
    for _ in range(int(sys.argv[3])):
        sys.stdout.write(make(r) + "\n")


main()
