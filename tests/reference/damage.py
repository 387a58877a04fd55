"""Ways to damage a list of words. Each takes the draws and the words, and returns new words."""

import words as form

PAYLOADS = [0, 1, 2, 3, 7, 8, 15, 16, 17, 120, 121, 122, 255, 256, 65520, 65521, 65535, 65536, 1 << 27, (1 << 28) - 1]


def replaced(words, place, w):
    """The words with one replaced."""
    return words[:place] + [w] + words[place + 1:]


def flip_bit(draws, words):
    """One bit of one word."""
    place = draws.below(len(words))
    return replaced(words, place, words[place] ^ 1 << draws.below(32))


def change_kind(draws, words):
    """Another kind, the payload kept."""
    place = draws.below(len(words))
    return replaced(words, place, form.word(draws.below(16), form.payload_of(words[place])))


def change_payload(draws, words):
    """A payload at or near one of the limits, the kind kept."""
    place = draws.below(len(words))
    return replaced(words, place, form.word(form.kind_of(words[place]), draws.choose(PAYLOADS)))


def one_more(draws, words):
    """A payload larger by one: a count that no longer fits, a coefficient that may reach p, a wrong end."""
    place = draws.below(len(words))
    return replaced(words, place, words[place] + 1 & 0xFFFFFFFF)


def drop(draws, words):
    """A word left out."""
    place = draws.below(len(words))
    return words[:place] + words[place + 1:]


def insert(draws, words):
    """A copy of some word put in anywhere, behind the last included."""
    place = draws.between(0, len(words))
    return words[:place] + [draws.choose(words)] + words[place:]


def swap(draws, words):
    """Two neighbours exchanged."""
    place = draws.below(max(1, len(words) - 1))
    return words[:place] + words[place:place + 2][::-1] + words[place + 2:]


def truncate(draws, words):
    """Only the first words, perhaps none."""
    return words[:draws.below(len(words))]


def extend(draws, words):
    """One to three words behind the last."""
    extra = [words[-1], words[0], 0, form.word(form.END, len(words) + 1), draws.below(1 << 32)]
    return words + [draws.choose(extra) for _ in range(draws.between(1, 3))]


def wrong_end(draws, words):
    """An end word whose payload is wrong, with words behind it or not."""
    end = form.word(form.END, draws.choose([0, len(words) - 1, len(words) + 1, 4 * len(words), len(words) + (1 << 27)]))
    return words[:-1] + [end] + ([end] if draws.once_in(3) else [])


def zero_last(draws, words):
    """A last coefficient made 0."""
    kinds = [form.kind_of(w) for w in words]
    lasts = [i for i in range(len(words) - 1) if kinds[i] == form.COEFFICIENT != kinds[i + 1]]
    return replaced(words, draws.choose(lasts), form.word(form.COEFFICIENT, 0)) if lasts else drop(draws, words)


def large_coefficient(draws, words, p):
    """A coefficient of p or a little more."""
    places = [i for i, w in enumerate(words) if form.kind_of(w) == form.COEFFICIENT]
    if not places:
        return insert(draws, words)
    return replaced(words, draws.choose(places), form.word(form.COEFFICIENT, p + draws.below(3)))


def long_polynomial(draws, words, limit):
    """A start word with the limit's count and one to three more, or far more."""
    places = [i for i, w in enumerate(words) if form.kind_of(w) == form.START]
    count = draws.choose([limit + 1, limit + 2, 2 * limit, 1 << 16, 1 << 27])
    return replaced(words, draws.choose(places), form.word(form.START, count)) if places else drop(draws, words)


def at_fault(words, part, p, limit):
    """The words with one polynomial at fault in each way, 4 to 8; it stands between the two places of the part."""
    first, last = part[0], part[1] - 1
    yield words[:first]
    yield replaced(words, first, form.word(form.COEFFICIENT, form.payload_of(words[first])))
    yield replaced(words, first, form.word(form.START, limit + 1))
    if first < last:
        yield words[:last]
        yield replaced(words, last, form.word(form.START, form.payload_of(words[last])))
        yield replaced(words, first + 1, form.word(form.COEFFICIENT, p))
        yield replaced(words, last, form.word(form.COEFFICIENT, 0))


WAYS = [
    flip_bit, change_kind, change_payload, one_more, drop, insert, swap, truncate, extend, wrong_end, zero_last,
]


def damaged(draws, words, p, limit):
    """The words damaged in one way, sometimes in two."""
    choice = draws.below(len(WAYS) + 2)
    if choice == len(WAYS):
        words = large_coefficient(draws, words, p)
    elif choice == len(WAYS) + 1:
        words = long_polynomial(draws, words, limit)
    else:
        words = WAYS[choice](draws, words)
    return damaged(draws, words, p, limit) if words and draws.once_in(5) else words


def noise(draws):
    """Words that were never right, most of them of a kind that exists."""
    def one():
        return draws.below(1 << 32) if draws.once_in(4) else form.word(draws.between(1, 5), draws.choose(PAYLOADS))
    return [one() for _ in range(draws.between(0, 12))]
