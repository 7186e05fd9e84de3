"""Random profiles over the lines of a case: expectations that hold or not, trees that come or not, comments, and lines out of form."""
from .profiles import LIMITS

ODD = (
    b"+1 w", b"-1 w", b"x w", b"4294967296 w", b"4294967295 w", b"007", b"?", b"readings", b"Readings w", b"\r", b" ", b"\xff 1", b"1 \xff", b"\xc2\xa01 w",
    b"1\xc2\xa0w", b"1.0 w", b"1, w", b"?? w", b"item 1 classes 3 readings 1", b"\t2 w", b"1\tw", b"\xd9\xa1 w", b"1\x0bw", b"1\xe2\x80\xa8w", b"edges", b"",
)


def profile_of(chance, lines, answer):
    """The text of a profile over some of these lines, each a list of words; `answer` gives what comes of words, and the trees' texts."""
    written = []
    for _ in range(chance.choice((0, 1, 3, 5, 8, 12)) if lines else 1):
        written += stray(chance)
        words = chance.choice(lines) if lines else []
        if chance.random() < 0.12:
            written.append(odd(chance))
            got, trees = answer(words)
        else:
            got, trees = answer(words)
            written.append(line_of(chance, expected(chance, got), words))
        written += below(chance, trees, got)
    text = b"\n".join(written)
    return text + b"\n" if chance.random() < 0.9 else text


def odd(chance):
    draw = chance.random()
    if draw < 0.05:
        return b"1 " + b"w" * chance.choice((65533, 65534))
    if draw < 0.07:
        return b"\xff" * 65536
    return chance.choice(ODD)


def stray(chance):
    """Lines that are passed over."""
    draw = chance.random()
    return [] if draw < 0.7 else [b""] if draw < 0.85 else [b"; a comment \xff"] if draw < 0.95 else [b";"]


def expected(chance, got):
    draw = chance.random()
    if draw < 0.6:
        return got if draw < 0.5 or not got.isdigit() else "00" + got
    if draw < 0.75:
        return "?"
    if draw < 0.9:
        return str(chance.choice((0, 1, 2, 3, 10001, 4294967295)))
    return chance.choice(LIMITS)


def line_of(chance, word, words):
    before = " " if chance.random() < 0.1 else ""
    between = chance.choice((" ", " ", " ", "  ", "\t", "\u00a0", "\u3000"))
    after = chance.choice(("", "", "", " ", "\r"))
    return (before + word + between + " ".join(words) + after).encode()


def below(chance, trees, got):
    """The trees that are written below an item, and what stands between them."""
    if chance.random() < 0.35:
        return []
    kept = [tree for tree in trees if chance.random() < 0.9]
    if chance.random() < 0.3:
        kept += [chance.choice(trees or [b'(r "w")']), changed(chance, chance.choice(trees or [b'(r (e "w"))']))]
    if chance.random() < 0.1:
        kept.append(b" " + (trees[0] if trees else b""))
    if chance.random() < 0.05:
        kept.append(b"\xff")
    chance.shuffle(kept)
    found = []
    for tree in kept:
        found += stray(chance) if chance.random() < 0.2 else []
        found.append(b"  " + tree)
    return found


def changed(chance, tree):
    at = chance.randrange(len(tree) + 1)
    return tree[:at] + chance.choice((b"", b" ", b"x", b")")) + tree[at + chance.choice((0, 1)) :]
