"""columns.py: answers requests about columns from standard input, by the format's rules alone (docs/FORMAT.md).

A second opinion where our answers and the Rust's part. Slow and short; it shares nothing with the library.
"""
import sys

MOST = 256
I_MIN, I_MAX = -(2**63), 2**63 - 1


class Fault(Exception):
    pass


def code(n, signed):
    """The shortest code of n."""
    out = []
    while True:
        low, n = n % 128, n >> 7
        if n == 0 and not (signed and low >= 64) or signed and n == -1 and low >= 64:
            return bytes(out + [low])
        out.append(low + 128)


def number(b, signed):
    """The number at the front of b, and how many bytes it takes."""
    size = next((i + 1 for i, x in enumerate(b) if x < 128), None)
    if size is None and len(b) < 10:
        raise Fault("cut short")
    if size is None or size > 10:
        raise Fault("too large")
    n = sum((x % 128) << 7 * i for i, x in enumerate(b[:size]))
    if signed and b[size - 1] >= 64:
        n -= 1 << 7 * size
    if not (I_MIN <= n <= I_MAX if signed else n < 2**64):
        raise Fault("too large")
    if len(code(n, signed)) != size:
        raise Fault("overlong")
    return n, size


def element(kind, b):
    """The element at the front of b in words, and how many bytes it takes."""
    if kind != "s":
        return number(b, kind != "u")
    length, used = number(b, False)
    if length > len(b) - used:
        raise Fault("past the end")
    text = b[used:used + length]
    try:
        text.decode("utf-8")
    except UnicodeDecodeError:
        raise Fault("not UTF-8")
    return "n" + text.hex(), used + length


def runs(kind, b):
    """The elements and nulls (None) of a run column; a delta column's are its differences."""
    while b:
        head, used = number(b, True)
        b = b[used:]
        if head == I_MIN:
            raise Fault("run too long")
        if head == 0:
            length, used = number(b, False)
            b = b[used:]
            if length > I_MAX:
                raise Fault("run too long")
        elif head > 0:
            length = head
            value, used = element(kind, b)
            b = b[used:]
        else:
            length = -head
        for _ in range(length):
            if head < 0:
                value, used = element(kind, b)
                b = b[used:]
            yield None if head == 0 else value


def clamped(n):
    return min(max(n, I_MIN), I_MAX)


def entries(kind, b):
    if kind in "uis":
        yield from ("_" if x is None else str(x) for x in runs(kind, b))
    elif kind == "d":
        last = 0
        for x in runs(kind, b):
            last = clamped(last + (x or 0))
            yield "_" if x is None else str(last)
    else:
        flag = 0
        while b:
            length, used = number(b, False)
            b = b[used:]
            for _ in range(length):
                yield str(flag)
            flag = 1 - flag


def read(kind, b, calls=0):
    """What a reader answers: its entries, then the end or the first fault; after a fault it is the end."""
    told = []
    try:
        for entry in entries(kind, b):
            if len(told) == MOST:
                return told + ["more"]
            told.append(entry)
    except Fault as fault:
        if len(told) == MOST:
            return told + ["more"]
        told.append(f"fault:{fault}")
        if calls == 0:
            return told
    return told + ["more" if len(told) == MOST else "end"]


def written(kind, items):
    """The column of a list: no bytes for nulls alone; each run as long as it can be."""
    out = b""
    if kind in "bm":
        if kind == "m" and "1" not in items:
            return out
        flag, i = "0", 0
        while i < len(items):
            j = i
            while j < len(items) and items[j] == flag:
                j += 1
            out, flag, i = out + code(j - i, False), "10"[int(flag)], j
        return out
    if all(x == "_" for x in items):
        return out
    if kind == "d":
        last, differences = 0, []
        for x in items:
            differences.append("_" if x == "_" else clamped(int(x) - last))
            last = last if x == "_" else int(x)
        items = differences
    codes = [None if x == "_" else element_code(kind, x) for x in items]
    i = 0
    while i < len(codes):
        j = i + 1
        while j < len(codes) and codes[j] == codes[i]:
            j += 1
        if codes[i] is None:
            out += code(0, True) + code(j - i, False)
        elif j - i > 1:
            out += code(j - i, True) + codes[i]
        else:
            # a literal run: up to a null, or to the first of two equal elements
            while j < len(codes) and codes[j] is not None and codes[j:j + 1] != codes[j + 1:j + 2]:
                j += 1
            out += code(i - j, True) + b"".join(codes[i:j])
        i = j
    return out


def element_code(kind, item):
    if kind != "s":
        return code(int(item), kind != "u")
    b = bytes.fromhex(item[1:])
    return code(len(b), False) + b


def answer(request):
    """The answer to a well-formed request about a column."""
    name, kind, *rest = request.split()
    if name == "wcol":
        return written(kind, rest).hex() or "-"
    data = b"" if rest[-1] == "-" else bytes.fromhex(rest[-1])
    return " ".join(read(kind, data, int(rest[0]) if name == "rcolx" else 0))


if __name__ == "__main__":
    for line in sys.stdin:
        print(answer(line))
