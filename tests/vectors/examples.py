"""Calls with right answers that need no decoder: the examples of 000, 004, 01 and 02, orders with altered and unknown symbols up to the limit and just beyond
it, orders damaged in their closing blocks alone, woven frames with a run of altered or unknown symbols, orders and lines of the greatest length, numbers that
are no setting or no D, and blocks of every level. What is sent is made by 01's definition.

Damage is twice the known symbols that were altered plus the unknown ones. Where a window has damage d + 1, and none has more, no message fits: of the window
where two messages first differ, d + 1 symbols or more are sent differently, each of which is unknown or altered for one of the two, so their damage together
is at least 2 (d + 1). With d_l in the place of d + 1 the same is true of the code blocks of level l."""
import functools, itertools

# The settings of 01 and 02: q, n, k, m and t.
SETTINGS = {
    1: (5, 4, 1, 2, 4),
    2: (8, 7, 2, 2, 5),
    3: (8, 7, 3, 1, 3),
    4: (16, 15, 3, 3, 16),
    5: (16, 15, 5, 2, 8),
}
UNUSED = "a5"
UNKNOWN = 255
# The most information blocks of an order, and of one in a line that begins with the setting's number and not with a letter.
LONGEST, LONGEST_BY_NUMBER = 4096, 512


def most_damage(setting):
    """d: d_0 + .. + d_m - 1."""
    _, n, k, m, t = SETTINGS[setting]
    d = sum(n - l * k + 1 for l in range(1, m + 2)) - 1
    assert d // 2 == t
    return d


def mixes(damage):
    """Every number of altered symbols, with the number of unknown ones that brings them to this damage."""
    return [(altered, damage - 2 * altered) for altered in range(damage // 2 + 1)]


def double(q, a):
    """α × a: modulo 5, or with α³ = α + 1, or with α⁴ = α + 1."""
    return 2 * a % 5 if q == 5 else 2 * a if 2 * a < q else 2 * a ^ q ^ 3


# The powers of α from α^0 on; those of the eight-element field are 01's.
POWERS = {q: list(itertools.accumulate(range(q - 2), lambda a, _: double(q, a), initial=1)) for q in (5, 8, 16)}
assert POWERS[8] == [1, 2, 4, 3, 6, 7, 5]


def symbols(text):
    return [UNKNOWN if c == "-" else int(c, 16) for c in text if c != " "]


def digits(area):
    return "".join("-" if symbol == UNKNOWN else "%x" % symbol for symbol in area)


def powers(text):
    """Symbols of the eight-element field from exponents of α; a point is 0."""
    return [0 if c == "." else POWERS[8][int(c)] for c in text if c != " "]


def transmission_of(setting, message):
    """Sent block s is the sum over j of (information block s - j) × G_j; row r of G_j holds the coefficients of x^r × f, that of x^i multiplied by α^(jki)."""
    q, n, k, m, _ = SETTINGS[setting]
    power = POWERS[q]

    def plus(a, b):
        return (a + b) % 5 if q == 5 else a ^ b

    def times(a, b):
        return power[(power.index(a) + power.index(b)) % n] if a and b else 0

    f, minus = [1], 4 if q == 5 else 1
    for i in range(n - k):
        f = [plus(before, times(times(minus, power[i]), c)) for before, c in zip([0] + f, f + [0])]
    sent = [0] * ((len(message) // k + m) * n)
    for place, symbol in enumerate(message):
        s, r = divmod(place, k)
        for j in range(m + 1):
            for i, c in enumerate(f, r):
                at = (s + j) * n + i
                sent[at] = plus(sent[at], times(symbol, times(c, power[j * k * i % n])))
    return sent


# 01's orders.
for setting, message, sent in (
    (1, "1", "2431 2323 2134"),
    (1, "12214334", "2431 1130 0032 0230 4100 1004 0023 0320 4024 3421"),
    (2, "10", "3132210 3411430 3665350"),
    (3, "100", "5774100 5266700"),
    (3, "010", "0577410 0461120"),
):
    assert transmission_of(setting, symbols(message)) == symbols(sent)


def areas(*held):
    return ["".join("%02x" % symbol for symbol in area) for area in held]


def answered(number, place=0, count=0, unknown=0):
    return {"number": number, "place": place, "count": count, "unknown": unknown}


def counted(setting, reception, transmission):
    """The answer where a message fits. Closing blocks do not count, unknown symbols are counted apart."""
    _, n, _, m, _ = SETTINGS[setting]
    altered = [r not in (UNKNOWN, t) for r, t in zip(reception, transmission)]
    return answered(0, count=sum(altered[: len(altered) - m * n]), unknown=reception.count(UNKNOWN))


def decoded(setting, reception, number, message, transmission, tail=0, place=0):
    """A decoding with areas `tail` bytes longer than needed, which keep those; numbers other than 0 and 7 change nothing."""
    r, m, t = areas(reception, message, transmission)
    before_m, before_t = UNUSED * (len(m) // 2 + tail), UNUSED * (len(t) // 2 + tail)
    kept = UNUSED * tail
    return {
        "call": "decode",
        "args": {"number": setting, "reception": r, "marea": before_m, "tarea": before_t},
        "result": {
            "answer": answered(number, place) if number else counted(setting, reception, transmission),
            "message": m + kept if number in (0, 7) else before_m,
            "transmission": t + kept if number in (0, 7) else before_t,
        },
    }


def encoded(setting, message, number, transmission, place=0):
    m, t = areas(message, transmission)
    before = UNUSED * (len(t) // 2)
    return {
        "call": "encode",
        "args": {"number": setting, "message": m, "tarea": before},
        "result": {"answer": answered(number, place), "transmission": t if number == 0 else before},
    }


def displayed(setting, reception, j, number):
    """Window j of a reception: m + 1 blocks from block j on, or an empty part."""
    _, n, _, m, _ = SETTINGS[setting] if number == 0 else [0] * 5
    r, part = areas(reception, reception[n * j : n * (j + m + 1)])
    return {
        "call": "window",
        "args": {"number": setting, "reception": r, "j": j},
        "result": {"answer": answered(number), "part": part},
    }


def marked(setting, reception, transmission, j, number):
    """The differences and the unknown symbols in window j, the earliest lowest; none if refused. An unknown symbol is marked also where the transmission holds
    the same byte."""
    _, n, _, m, _ = SETTINGS[setting] if number == 0 else [0] * 5
    window = range(n * j, n * (j + m + 1))
    differ = [reception[i] == UNKNOWN or reception[i] != transmission[i] for i in window]
    r, t = areas(reception, transmission)
    return {
        "call": "marks",
        "args": {"number": setting, "reception": r, "transmission": t, "j": j},
        "result": {"answer": answered(number), "marks": sum(2**i for i, d in enumerate(differ) if d), "ones": sum(differ)},
    }


def laid(call, setting, D, incoming, number, out, place=0, tail=0):
    """A weaving or an unweaving with an out area `tail` bytes longer than `out`, which keeps those; numbers other than 0 change nothing."""
    i, o = areas(incoming, out)
    before = UNUSED * (len(out) + tail)
    return {
        "call": call,
        "args": {"number": setting, "D": D, "frames" if call == "weave" else "woven": i, "area": before},
        "result": {"answer": answered(number, place), "area": o + UNUSED * tail if number == 0 else before},
    }


def decoded_woven(setting, D, reception, number, frames, message, transmission, place=0, tail=0):
    """A decoding of woven frames whose own answers are `frames`; the rest as with `decoded`."""
    r, m, t = areas(reception, message, transmission)
    before_m, before_t = (UNUSED * (len(area) + tail) for area in (message, transmission))
    kept = UNUSED * tail
    return {
        "call": "decode_woven",
        "args": {"number": setting, "D": D, "woven": r, "marea": before_m, "tarea": before_t},
        "result": {
            "answer": answered(number, place),
            "frames": frames,
            "message": m + kept if number == 0 else before_m,
            "transmission": t + kept if number == 0 else before_t,
        },
    }


def answered_line(line, answer):
    return {"call": "line", "args": {"line": line.encode().hex()}, "result": {"line": answer}}


def long_order(setting, T):
    """An information block 1, 10, .. in every block m + 1 apart: its transmission, again and again."""
    _, n, k, m, _ = SETTINGS[setting]
    one, none = [1] + [0] * (k - 1), [0] * k
    message = [s for i in range(T) for s in (one if i % (m + 1) == 0 else none)]
    last = (T - 1) // (m + 1) * (m + 1)
    transmission = transmission_of(setting, one) * (last // (m + 1) + 1)
    return message, (transmission + [0] * (n * m))[: n * (T + m)]


def altered_at(setting, transmission, places, unknown=()):
    """Symbols altered at some places and dropped at others."""
    q = SETTINGS[setting][0]
    reception = list(transmission)
    for i, place in enumerate(places):
        reception[place] = (reception[place] + 1 + i % (q - 1)) % q
    for place in unknown:
        reception[place] = UNKNOWN
    return reception


def damage(reception, transmission):
    return [1 if r == UNKNOWN else 2 * (r != t) for r, t in zip(reception, transmission)]


def windows_damage(setting, reception, transmission):
    """The damage in each window."""
    _, n, _, m, _ = SETTINGS[setting]
    each = damage(reception, transmission)
    return [sum(each[j : j + (m + 1) * n]) for j in range(0, len(each) - m * n, n)]


def fits(setting, reception, transmission):
    return max(windows_damage(setting, reception, transmission)) <= most_damage(setting)


def tried(setting, reception, message, transmission):
    """The decoding of a reception that has no more than d + 1 damage in a window."""
    if fits(setting, reception, transmission):
        return decoded(setting, reception, 0, message, transmission, tail=1)
    assert max(windows_damage(setting, reception, transmission)) == most_damage(setting) + 1
    return decoded(setting, reception, 7, [0] * len(message), [0] * len(transmission), tail=1)


def worked_orders():
    """Orders of settings 4 and 5: clean; with t altered symbols in the first or the last window, at its start, at its end, or all over it; with one symbol
    more, which no message fits, since d is 2t + 1."""
    for setting, text in ((4, "f0e 1d2 c3b 4a5"), (5, "01234 56789 abcde fedcb")):
        _, n, k, m, t = SETTINGS[setting]
        message = symbols(text)
        transmission = transmission_of(setting, message)
        yield encoded(setting, message, 0, transmission)
        yield decoded(setting, transmission, 0, message, transmission, tail=1)
        size, last = (m + 1) * n, len(message) // k - 1
        for j in (0, last):
            for window in (range(t + 1), range(size - t - 1, size), range(0, size, size // (t + 1))):
                places = [j * n + place for place in window][: t + 1]
                reception = altered_at(setting, transmission, places[:t])
                yield tried(setting, reception, message, transmission)
                for shown in range(last + 1):
                    yield displayed(setting, reception, shown, 0)
                    yield marked(setting, reception, transmission, shown, 0)
                yield tried(setting, altered_at(setting, transmission, places), message, transmission)


def unknown_symbols():
    """02's examples. Orders of every setting with every mix of altered and unknown symbols that is d or d + 1 in a window, the first or the last, spread over
    it. An order with unknown symbols shown and marked; one encoded, which is refused; a reception with the byte before their mark."""
    transmission = symbols("2431 2323 2134")
    yield decoded(1, symbols("2431 ---- ----"), 0, [1], transmission, tail=1)
    for missing in (range(3, 12), range(9), range(0, 12, 2), range(1, 12, 2)):
        for sent in (transmission, [0] * 12):
            places = list(missing) + [place for place in range(12) if place not in missing]
            yield decoded(1, altered_at(1, sent, (), places[:9]), 7, [0], [0] * 12, tail=1)
    for setting, (q, n, k, m, _) in SETTINGS.items():
        message = [(i * i + 2 * i + 3) % q for i in range(3 * k)]
        transmission = transmission_of(setting, message)
        size = (m + 1) * n
        for j in (0, 2):
            window = [j * n + 11 * i % size for i in range(size)]
            assert sorted(window) == list(range(j * n, j * n + size))
            for altered, unknown in mixes(most_damage(setting)) + mixes(most_damage(setting) + 1):
                reception = altered_at(setting, transmission, window[:altered], window[altered : altered + unknown])
                yield tried(setting, reception, message, transmission)
        reception = altered_at(setting, transmission, (1, n), (0, n + 2, size))
        for shown in range(3):
            yield displayed(setting, reception, shown, 0)
            yield marked(setting, reception, transmission, shown, 0)
            yield marked(setting, transmission, reception, shown, 0)
            yield marked(setting, reception, reception, shown, 0)
        order = message[: k + 1] + [UNKNOWN] + message[k + 2 :]
        yield encoded(setting, order, 4, transmission, place=k + 1)
        reception[n] = 254
        yield decoded(setting, reception, 4, message, transmission, tail=1, place=n)


def closing_damage():
    """Orders of settings 1 to 3 with t altered symbols, all in closing blocks: none counts. With one more there no message fits: all are tried. In settings 4
    and 5 `worked_orders` has such orders, with the end of the last window altered."""
    for setting, text in ((1, "3"), (2, "56"), (3, "526")):
        q, n, k, _, t = SETTINGS[setting]
        message = symbols(text)
        transmission = transmission_of(setting, message)
        closing = range(n, len(transmission))
        reception = altered_at(setting, transmission, closing[-t:])
        yield decoded(setting, reception, 0, message, transmission, tail=1)
        reception = altered_at(setting, transmission, closing[-t - 1 :])
        messages = map(list, itertools.product(range(q), repeat=k))
        assert not any(fits(setting, reception, transmission_of(setting, other)) for other in messages)
        yield decoded(setting, reception, 7, [0] * len(message), [0] * len(transmission), tail=1)


def woven(frames):
    """Symbol i of frame f goes to i × D + f."""
    D = len(frames)
    area = [None] * sum(map(len, frames))
    for f, frame in enumerate(frames):
        for i, symbol in enumerate(frame):
            area[i * D + f] = symbol
    return area


def struck(setting, messages, start, length, dropped):
    """Woven orders decoded after a run of altered or of unknown symbols. A frame with no more than d damage in a window comes back; one with d + 1 gets 7, and
    zeros."""
    D, run = len(messages), range(start, start + length)
    sent = [transmission_of(setting, message) for message in messages]
    reception = altered_at(setting, woven(sent), () if dropped else run, run if dropped else ())
    decodings = [tried(setting, reception[f::D], messages[f], sent[f]) for f in range(D)]
    frames = [decoding["result"]["answer"] for decoding in decodings]
    back = [answer["number"] == 0 for answer in frames]
    message, transmission = (sum(([s if back[f] else 0 for s in area[f]] for f in range(D)), []) for area in (messages, sent))
    return decoded_woven(setting, D, reception, 0, frames, message, transmission, tail=2)


def woven_orders():
    """D orders woven and unwoven, with and without unknown symbols; decoded after a run of D × t altered or D × d unknown symbols, at the start, across the
    first block's border and at the end, which leaves every order whole. One symbol more makes d + 1 damage in one window of one frame; of altered ones only
    where d is 2t + 1, as in settings 2, 4 and 5."""
    for setting, (q, n, k, _, t) in SETTINGS.items():
        d = most_damage(setting)
        for D in range(2, 9):
            messages = [[(3 * f + i * i + 1) % q for i in range(2 * k)] for f in range(D)]
            sent = [transmission_of(setting, message) for message in messages]
            received = [altered_at(setting, frame, (), range(f, len(frame), 5)) for f, frame in enumerate(sent)]
            for frames in (sent, received):
                apart, together = sum(frames, []), woven(frames)
                yield laid("weave", setting, D, apart, 0, together, tail=1)
                yield laid("unweave", setting, D, together, 0, apart, tail=1)
            runs = [(D * t, False), (D * d, True), (D * d + 1, True)] + [(D * t + 1, False)] * (d % 2)
            for run, dropped in runs:
                for start in (0, 1, max(D * n - run // 2, 0), len(together) - run):
                    yield struck(setting, messages, start, run, dropped)


def refused_woven():
    """One question after another gets a no from the calls on woven frames, the later ones getting one too."""
    for setting, (q, n, k, m, _) in SETTINGS.items():
        for D in (2, 8):
            length = (2 + m) * n
            wrong = [0] * (D * length - 3) + [UNKNOWN, q, 254]
            asked = [(setting + 5, 0, [q], 1, 0)]
            asked += [(setting, no_frames, wrong + [0], 14, 0) for no_frames in (0, 1, 9, 2**32 + 2, 2**63, 2**64 - 1)]
            asked += [(setting, D, incoming, 15, 0) for incoming in ([q], wrong + [0], wrong[1:])]
            asked += [(setting, D, [q] * (D * size), 2, 0) for size in (0, m * n, length - 1, length + 1)]
            asked += [(setting, D, [q] * (D * (LONGEST + 1 + m) * n), 3, 0), (setting, D, wrong, 4, D * length - 2)]
            for number, frames, incoming, question, place in asked:
                yield laid("weave", number, frames, incoming, question, [0] * 3, place)
                yield laid("unweave", number, frames, incoming, question, [0] * 3, place)
                yield decoded_woven(number, frames, incoming, question, [], [0] * 3, [0] * 3, place)
            clean = [0] * (D * length)
            yield laid("weave", setting, D, clean, 6, clean[1:])
            yield laid("unweave", setting, D, clean, 6, clean[1:])
            yield decoded_woven(setting, D, clean, 5, [], [0] * (D * 2 * k - 1), clean[1:])
            yield decoded_woven(setting, D, clean, 6, [], [0] * (D * 2 * k), clean[1:])


def repaired(setting, level, block, code_block):
    """A block step's code block and marks, symbol 0's mark lowest; where no code block is near enough, none and no mark. Unknown symbols are not marked."""
    marks = sum(2**i for i, (a, b) in enumerate(zip(block, code_block or block)) if a not in (UNKNOWN, b))
    b, c = areas(block, code_block or [])
    return {"call": "block_step", "args": {"number": setting, "level": level, "block": b}, "result": [c or None, marks]}


def code_block_of(setting, information):
    """Block l of the transmission of information blocks x_0 to x_l: the sum over j of x_(l-j) × G_j, j from 0 to l."""
    _, n, k, _, _ = SETTINGS[setting]
    l = len(information) // k - 1
    return transmission_of(setting, information)[l * n : (l + 1) * n]


@functools.cache
def code_blocks_of(setting, level):
    """All code blocks of a level, or none where they are more than 4096."""
    q, _, k, _, _ = SETTINGS[setting]
    size = (level + 1) * k
    all_information = itertools.product(range(q), repeat=size) if q**size <= 4096 else ()
    return [code_block_of(setting, list(information)) for information in all_information]


def distance(a, b):
    return sum(x != y for x, y in zip(a, b))


def spots(n, count):
    """So many places of a block: its first ones, its last ones, and ones spread over it."""
    return range(count), range(n - count, n), [(2 * i + 1) * n // (2 * count) for i in range(count)]


def moved(code_block, other, count):
    """A code block with so many of its symbols replaced by another's."""
    places = [i for i, symbol in enumerate(other) if symbol != code_block[i]][:count]
    return [other[i] if i in places else symbol for i, symbol in enumerate(code_block)]


def beyond(setting, level, code_block, limit):
    """One altered symbol more than a repair undoes. Where a level's code blocks are few, all are tried, and a block between this one and its nearest is added.
    Where they are many and d_l is even, none is near enough, since d_l = 2 × limit + 2; where it is odd one may be, so nothing is given."""
    _, n, k, _, _ = SETTINGS[setting]
    blocks = [altered_at(setting, code_block, places) for places in spots(n, limit + 1)]
    code_blocks = code_blocks_of(setting, level)
    if code_blocks:
        next_one = min((c for c in code_blocks if c != code_block), key=lambda c: distance(c, code_block))
        blocks.append(moved(code_block, next_one, limit + 1))
    elif (n - (level + 1) * k + 1) % 2 == 1:
        return
    for block in blocks:
        near = [c for c in code_blocks if distance(c, block) <= limit]
        assert len(near) <= 1
        yield repaired(setting, level, block, near[0] if near else None)


def mixed(setting, level, code_block):
    """A code block with every mix of altered and unknown symbols that a repair undoes, and with every one that is just more; with all symbols unknown."""
    _, n, k, _, _ = SETTINGS[setting]
    limit = n - (level + 1) * k
    pairs = [pair for damage in range(limit + 2) for pair in mixes(damage) if pair[1]]
    for i, (altered, unknown) in enumerate(pairs + [(0, n)]):
        places = list(spots(n, altered + unknown)[i % 3])[:: 1 - i % 2 * 2]
        block = altered_at(setting, code_block, places[:altered], places[altered:])
        yield repaired(setting, level, block, code_block if 2 * altered + unknown <= limit else None)


def block_steps():
    """Blocks of every level of every setting: two code blocks, the first all zero, as they are, with one altered symbol, with as many as a repair undoes, that
    is half of d_l - 1, rounded down, and with one more; the second with altered and unknown symbols. Where d_l is 1 every block is a code block if it has no
    unknown symbol."""
    for setting, (q, n, k, m, _) in SETTINGS.items():
        for level in range(m + 1):
            size = (level + 1) * k
            limit = (n - size) // 2
            for information in ([0] * size, [(i * i + 3 * i + 1) % q for i in range(size)]):
                code_block = code_block_of(setting, information)
                yield repaired(setting, level, code_block, code_block)
                for count in sorted({1, limit}) if limit else ():
                    for places in spots(n, count):
                        yield repaired(setting, level, altered_at(setting, code_block, places), code_block)
                yield from beyond(setting, level, code_block, limit)
            yield from mixed(setting, level, code_block)
            if n == size:
                block = [(i * i * i + 5 * i + 3) % q for i in range(n)]
                yield repaired(setting, level, block, block)


def answered_lines():
    """The desk's sample lines; settings that are none; unknown symbols; heads with a letter, which have one character more."""
    samples = {
        "1001243123230000": "00000010011",
        "10012431--------": "00000010011",
        "1001243123200000": "070000",
        "1001243523230000": "040003",
        "": "090000",
        "4001": "0a0000",
        "1201": "030000",
        "1001243": "0a0000",
    }
    # Settings 4 and 5, and what is no setting.
    others = {"5001": "0a0000", "4201": "030000", "5201": "030000", "0001": "010000", "6001": "010000", "f001": "010000"}
    # Unknown symbols: with an altered one; too many; too few and too many of them; where no symbol stands.
    dropped = {
        "10011431------34": "00000110011",
        "10011431-------4": "070000",
        "1001------------": "070000",
        "10012431-------": "0a0000",
        "10012431---------": "0a0000",
        "10012431-----5--": "040009",
        "10012431----g---": "09000c",
        "-0012431--------": "090000",
        "100-2431--------": "090003",
        "-": "090000",
        "10-": "090002",
        "1000-": "0a0000",
        "f000-": "010000",
        "-" * 7730: "090000",
    }
    # A letter; f names no setting, and after 6 there are three digits of T.
    letters = {
        "a": "090001",
        "a-": "090001",
        "a0-0": "090002",
        "a00-": "090003",
        "a0000-": "0a0000",
        "affff": "030000",
        "a0001243123230000": "000000a00011",
        "a00012431--------": "000000a00011",
        "a0001243123200000": "070000",
        "a0001243523230000": "040003",
        "a00012431----g---": "09000d",
        "f0001": "010000",
        "60011": "010000",
    }
    for line, answer in (samples | others | dropped | letters).items():
        yield answered_line(line, answer)
    behind = {"001": "090004", "000-": "090004", "0000": "0a0000", "0001": "0a0000", "1000": "0a0000", "1001": "030000"}
    for setting, letter in zip(SETTINGS, "abcde"):
        q, _, k, _, _ = SETTINGS[setting]
        for line, answer in behind.items():
            yield answered_line(letter + line, answer)
        # The same frame by either head, with as many unknown symbols as may be.
        message = [(i * i + 1) % q for i in range(k)]
        transmission = transmission_of(setting, message)
        missing = range(len(transmission) - most_damage(setting), len(transmission))
        for head in ("%d001" % setting, letter + "0001"):
            yield answered_line(head + digits(altered_at(setting, transmission, (), missing)), "000000" + head + digits(message))


def long_lines():
    """Frames of 512 and 513 blocks by either head, and the longest of all; lines with more characters than a frame by their head has, and with too many."""
    for setting, letter in zip(SETTINGS, "abcde"):
        _, n, k, m, _ = SETTINGS[setting]
        message, transmission = map(digits, long_order(setting, LONGEST_BY_NUMBER))
        line = "%d200" % setting + transmission
        yield answered_line(line, "000000" + line[:4] + message)
        # The last symbol that counts, the first of the closing blocks, the last of all.
        closing = len(line) - m * n
        for place, count in ((closing - 1, 1), (closing, 0), (len(line) - 1, 0)):
            other = "1" if line[place] == "0" else "0"
            yield answered_line(line[:place] + other + line[place + 1 :], "00%04x" % count + line[:4] + message)
        if setting == 2:
            assert len(line) == 3602
            yield answered_line(line[:-1] + "8", "040e0d")
            for other in ("4" + line[1:], "3" + line[1:], line + "0"):
                yield answered_line(other, "0a0000")
        if setting == 4:
            assert len(line) == 7729
            yield answered_line(line[:-1] + "g", "091e30")
            yield answered_line("6" + line[1:], "010000")
            yield answered_line("5" + line[1:], "0a0000")
            # Such lines got 11 when it was asked of 7,729 characters.
            longer = {line + "0": "0a0000", line + "g": "091e31", "4201" + line[3:]: "030000", "6" + line: "010000", "g" * 7730: "090000", "0" * 8000: "010000"}
            for other, answer in longer.items():
                yield answered_line(other, answer)
        yield answered_line(letter + "0" + line[1:], "000000" + letter + "0200" + message)
        message, transmission = map(digits, long_order(setting, LONGEST_BY_NUMBER + 1))
        yield answered_line("%d201" % setting + transmission, "030000")
        yield answered_line(letter + "0201" + transmission, "000000" + letter + "0201" + message)
        head, length = letter + "1000", (LONGEST + m) * n
        yield answered_line(head + "0" * length, "000000" + head + "0" * (LONGEST * k))
        if setting == 4:
            assert 5 + length == 61490
            yield answered_line(head + "0" * (length - 1) + "g", "09f031")
            for longer in (head + "0" * (length + 1), "g" * 61491):
                yield answered_line(longer, "0b0000")


def long_orders():
    """Orders of 513 blocks, which a line has only by a letter, and of 4,096, with windows of them; orders of 4,097, which every call refuses. Where an encoding is
    refused, its area is a short one."""
    for setting, (q, n, k, m, _) in SETTINGS.items():
        for T in (LONGEST_BY_NUMBER + 1, LONGEST):
            message, transmission = long_order(setting, T)
            yield encoded(setting, message, 0, transmission)
            yield encoded(setting, message, 6, [0] * 3)
            yield decoded(setting, transmission, 0, message, transmission, tail=1)
            altered = list(transmission)
            for i in range(0, len(altered), n * (m + 1)):
                altered[i] = (altered[i] + 1) % q
            yield decoded(setting, altered, 0, message, transmission)
            yield displayed(setting, altered, T - 1, 0)
            yield displayed(setting, altered, T, 12)
            yield marked(setting, altered, transmission, T - 1, 0)
        message, transmission = long_order(setting, LONGEST + 1)
        yield encoded(setting, message, 3, [0] * 3)
        yield decoded(setting, transmission, 3, message, transmission)
        yield displayed(setting, transmission, 0, 3)
        yield displayed(setting, transmission, LONGEST + 1, 3)
        yield marked(setting, transmission, transmission[:-1], LONGEST + 1, 3)


def examples():
    none_fits = [
        (1, "2000 4004 4000 0431"),  # 000, Example 4.2 (a)
        (1, "2431 1130 0000 0200 4100 0004 0003 0020 0004 3400"),  # 000, Example 4.2 (b)
        (1, "2431 2320 0000"),
    ]
    for setting, text in none_fits:
        _, n, k, m, _ = SETTINGS[setting]
        reception = symbols(text)
        message = [0] * ((len(reception) // n - m) * k)
        yield decoded(setting, reception, 7, message, [0] * len(reception), tail=3)
    one_fits = [
        (1, "4031 1130 3210 3213 0100", "120", "2431 1130 1220 4213 0000"),  # 000, Example 4.1
        (1, "2400 1100 0000 0230 4100 0000 0023 0320 0000 3400", "00000000", "0000" * 10),  # 000, Example 4.2 (c)
        (1, "0000 0000 0000", "0", "0000 0000 0000"),
        (1, "2431 2323 0000", "1", "2431 2323 2134"),
    ]
    for setting, reception, message, transmission in one_fits:
        yield decoded(setting, symbols(reception), 0, symbols(message), symbols(transmission), tail=2)
    # 004, Example 4.5: the matrices of its code with k = 2 and of its code with k = 3, by another generator, and the second matrix of (b), by f. A row with its
    # powers of z one after the other is the transmission of an information block; for f's, of 100, 010 and 001.
    rows = [
        (2, "02", ".414221 .653356 .122414"),
        (2, "74", "1.41422 1.10550 1.56615"),
        (3, "204", "0651342 0243156"),
        (3, "366", "2065134 2350641"),
        (3, "753", "4206513 4561320"),
        (3, "100", "65520.. 61445.."),
        (3, "010", ".65520. .24001."),
        (3, "001", "..65520 ..50334"),
    ]
    for setting, message, row in rows:
        yield encoded(setting, symbols(message), 0, powers(row))
        yield decoded(setting, powers(row), 0, symbols(message), powers(row))
    yield from worked_orders()
    yield from unknown_symbols()
    yield from closing_damage()
    yield from woven_orders()
    yield from refused_woven()
    # Numbers that are no setting; five of them are one in their lowest 32 bits.
    message, transmission = long_order(1, 1)
    for number in (6, 2**32 + 1, 2**32 + 2, 2**63 + 3, 2**32 + 4, 2**63 + 5, 2**63, 2**64 - 1):
        yield encoded(number, message, 1, transmission)
        yield decoded(number, transmission, 1, message, transmission)
        yield displayed(number, transmission, 0, 1)
        yield marked(number, transmission, transmission, 0, 1)
    yield from answered_lines()
    yield from long_lines()
    yield from long_orders()
    for setting, (q, n, k, m, _) in SETTINGS.items():
        # One question after another gets a no, the later ones getting one too.
        message, transmission = long_order(setting, 3)
        wrong = transmission[:8] + [UNKNOWN, q, 254] + transmission[11:]
        yield decoded(setting + 5, wrong, 1, message, transmission)
        yield decoded(setting, wrong[:-1], 2, message, transmission)
        yield decoded(setting, wrong, 4, message[1:], transmission[1:], place=9)
        yield decoded(setting, transmission, 5, message[1:], transmission[1:])
        yield decoded(setting, transmission, 6, message, transmission[1:])
        yield marked(setting, transmission[:-1], transmission, 3, 2)
        yield marked(setting, transmission, transmission[:-1], 3, 12)
        yield marked(setting, transmission, transmission[:-1], 2, 13)
    yield from block_steps()
