"""What the product's paper says of words, rules, refusals, tightening, the published search, reasons and causes: a reading of its own in Python.

Shares no code and no table with the crates. Tightening goes through every fit. Words are a list of numbers, three a word (width, lo, hi); rules are a list of
bytes, six a rule (kind, r, a, b, s, k).
"""
import itertools

# kind: the fields it uses (r a b s k), and what its values must satisfy
USES = {1: "ra", 2: "ra", 3: "rab", 4: "rab", 5: "rab", 6: "rab", 7: "rabs", 8: "rak", 9: "rab", 10: "rak", 11: "rak", 12: "ab", 13: "ab", 14: "ab"}


def holds(kind, v, w, k):
    """Whether a rule holds for the values v of its places, of widths w."""
    if kind == 12:
        return v["a"] <= v["b"]
    if kind == 13:
        return v["a"] < v["b"]
    if kind == 14:
        return v["a"] != v["b"]
    return v["r"] == result(kind, v, w, k)


def result(kind, v, w, k):
    """What a computing rule gives at r."""
    top = 1 << w["r"]
    a, b = v["a"], v.get("b", 0)
    if kind == 7:
        return a if v["s"] == 1 else b
    return {
        1: lambda: a,
        2: lambda: top - 1 - a,
        3: lambda: a & b,
        4: lambda: a | b,
        5: lambda: a ^ b,
        6: lambda: (a + b) % top,
        8: lambda: (a >> k) % top,
        9: lambda: (a << w["b"]) + b,
        10: lambda: (a << k) % top,
        11: lambda: a >> k,
    }[kind]()


def fits_widths(kind, w, k):
    """Whether the widths of a rule's places, and k, fit."""
    if kind in (1, 2, 10, 11):
        return w["r"] == w["a"]
    if kind in (3, 4, 5, 6):
        return w["r"] == w["a"] == w["b"]
    if kind == 7:
        return w["r"] == w["a"] == w["b"] and w["s"] == 1
    if kind == 8:
        return k + w["r"] <= w["a"]
    if kind == 9:
        return w["r"] == w["a"] + w["b"]
    return w["a"] == w["b"]


def refusal(words, rules, limit):
    """The first refusal in the numbered order, or None."""
    n, m = len(words) // 3, len(rules) // 6
    if len(words) % 3 or len(rules) % 6 or n > 32 or m > 252:
        return 1, 0
    for i in range(n):
        w, lo, hi = words[3 * i : 3 * i + 3]
        if not 1 <= w <= 64:
            return 4, i
        if lo & ~hi or hi >> w:
            return 5, i
    for j in range(m):
        kind = rules[6 * j]
        named = dict(zip("rabsk", rules[6 * j + 1 : 6 * j + 6]))
        if not 1 <= kind <= 14:
            return 6, j
        for field, x in named.items():
            if field in USES[kind]:
                if field != "k" and x >= n:
                    return 7, j
            elif x:
                return 7, j
        if not fits_widths(kind, {p: words[3 * named[p]] for p in USES[kind] if p != "k"}, named["k"]):
            return 8, j
    if limit > 1000000:
        return 9, 0
    return None


# up to so many open bits every value is gone through
FEW = 14


def between(lo, hi):
    """All values that keep the fixed bits of two bounds."""
    free = [1 << j for j in range(64) if (lo ^ hi) >> j & 1]
    if len(free) > FEW:
        raise ValueError("too many open bits to go through")
    for chosen in itertools.product((0, 1), repeat=len(free)):
        yield lo + sum(bit for bit, one in zip(free, chosen) if one)


def narrowed(words, rule):
    """For each place in use the bits that are 0 in some fit and 1 in some fit, as a pair of bounds; None without a fit."""
    kind, named, k = rule[0], dict(zip("rabs", rule[1:5])), rule[5]
    places = [p for p in USES[kind] if p != "k"]
    bounds = {p: tuple(words[3 * named[p] + 1 : 3 * named[p] + 3]) for p in places}
    widths = {p: words[3 * named[p]] for p in places}
    operands = [p for p in places if p != "r"]
    seen = {}
    for values in itertools.product(*(between(*bounds[p]) for p in operands)):
        v = dict(zip(operands, values))
        if "r" in places:
            v["r"] = result(kind, v, widths, k)
            lo, hi = bounds["r"]
            if v["r"] & ~hi or lo & ~v["r"]:
                continue
        if not holds(kind, v, widths, k):
            continue
        for p in places:
            low, high = seen.get(p, (v[p], v[p]))
            seen[p] = (low & v[p], high | v[p])
    return [(named[p],) + seen[p] for p in places] if seen else None


def tightened(words, rules):
    """The bounds of the widest tight table, or None."""
    words = list(words)
    while True:
        before = list(words)
        for j in range(len(rules) // 6):
            places = narrowed(words, rules[6 * j : 6 * j + 6])
            if places is None:
                return None
            for word, low, high in places:
                words[3 * word + 1] |= low
                words[3 * word + 2] &= high
                if words[3 * word + 1] & ~words[3 * word + 2]:
                    return None
        if words == before:
            return words


def search(words, rules, limit, used=0):
    """The published search of a table: its answer, its count, and the settings found."""
    tight = tightened(words, rules)
    if tight is None:
        return "none", used, None
    open_words = [i for i in range(len(tight) // 3) if tight[3 * i + 1] != tight[3 * i + 2]]
    if not open_words:
        return "found", used, tight[1::3]
    if used == limit:
        return "gaveup", limit, None
    word = open_words[0]
    top = 1 << ((tight[3 * word + 1] ^ tight[3 * word + 2]).bit_length() - 1)
    zero, one = list(tight), list(tight)
    zero[3 * word + 2] -= top
    one[3 * word + 1] += top
    answer = search(zero, rules, limit, used + 1)
    return answer if answer[0] != "none" else search(one, rules, limit, answer[1])


def says(words, rule, place, bit, opened):
    """What a rule says of a bit, with some bits treated as open at their places."""
    kind, named, k = rule[0], dict(zip("rabs", rule[1:5])), rule[5]
    places = [p for p in USES[kind] if p != "k"]
    widths = {p: words[3 * named[p]] for p in places}
    bounds = {}
    for p in places:
        drop = sum(1 << j for q, j in opened if q == p)
        bounds[p] = (words[3 * named[p] + 1] & ~drop, words[3 * named[p] + 2] | drop)
    seen = seen_in_fits(kind, k, widths, bounds, place, bit)
    return "conflict" if not seen else "free" if len(seen) == 2 else "forced %d" % seen.pop()


def seen_in_fits(kind, k, widths, bounds, place, bit):
    """The values that a bit has in the fits of a rule: every fit is gone through, but of a shift with many open bits."""
    open_bits = sum(bin(lo ^ hi).count("1") for lo, hi in bounds.values())
    by_bits = shift_by_bits(kind, k, widths["r"], bounds, place, bit) if kind in (10, 11) else None
    if by_bits is not None and open_bits > FEW:
        return by_bits
    seen = set()
    for values in itertools.product(*(between(*bounds[p]) for p in bounds)):
        v = dict(zip(bounds, values))
        if holds(kind, v, widths, k):
            seen.add(v[place] >> bit & 1)
    if by_bits not in (None, seen):
        raise ValueError(f"a shift by {k} has {seen} in its fits, and bit by bit {by_bits}")
    return seen


def shift_by_bits(kind, k, width, bounds, place, bit):
    """The values that a bit has in the fits of a shift. Each bit of r is one bit of a, or a zero that enters; so each is looked at by itself."""

    def can(p, j):
        return {x for x in (0, 1) if bounds[p][x] >> j & 1 == x}

    seen = can(place, bit)
    for i in range(width):
        j = i - k if kind == 10 else i + k
        both = can("r", i) & (can("a", j) if 0 <= j < width else {0})
        if not both:
            return set()
        if (place, bit) in (("r", i), ("a", j)):
            seen = both
    return seen


def reason(words, rule, place, bit):
    """What a rule says of an open bit at a place, and the reason, each entry 64 times place plus bit; none where the bit is free."""
    named = "rabs"[place]
    answer, opened, entries = says(words, rule, named, bit, []), [], []
    if answer == "free":
        return answer, entries
    for number, p in enumerate("rabs"):
        if p not in USES[rule[0]]:
            continue
        at = 3 * rule[1 + number]
        for j in range(words[at]):
            if (words[at + 1] ^ words[at + 2]) >> j & 1:
                continue
            if says(words, rule, named, bit, opened + [(p, j)]) == answer:
                opened.append((p, j))
            else:
                entries.append(64 * number + j)
    return answer, entries


def is_question(words, rules, rule, place, bit):
    """Whether an explanation may be asked: an open bit at a place that the rule uses."""
    if rule >= len(rules) // 6 or place > 3 or "rabs"[place] not in USES[rules[6 * rule]]:
        return False
    width, lo, hi = words[3 * rules[6 * rule + 1 + place] :][:3]
    return bit < width and (lo ^ hi) >> bit & 1 == 1


def cause(words, rules, limit):
    """The answer, the sum of all counts, and the rules that are left."""
    answer, total, _ = search(words, rules, limit)
    if answer != "none":
        return "exists" if answer == "found" else answer, total, None
    kept = list(range(len(rules) // 6))
    for n in reversed(range(len(rules) // 6)):
        rest = [j for j in kept if j != n]
        answer, count, _ = search(words, [x for j in rest for x in rules[6 * j : 6 * j + 6]], limit)
        total += count
        if answer == "gaveup":
            return answer, total, None
        if answer == "none":
            kept = rest
    return "cause", total, kept
