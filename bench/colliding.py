"""Makes names that collide under hashes with keys that everybody knows, for shapes.py and hostile_floods.py.

`own` is the hash of crates/pptext/src/hashing.rt, which hashes names, with the key of `Hashing::fixed()`.  `kit` is the kit's
default hash, in core/src/hash/fold.rt there.  A write takes a state of 64 bits and some bytes, and returns the next state.
The first state is fixed, and the last one is the hash.  To fold a number is to multiply it by another number, and to join
the halves of the product by xor.
"""
import itertools
import string

SEED, MULTIPLIER = 0x243F6A8885A308D3, 0x9E3779B97F4A7C15
WORD = 2**64 - 1
LETTERS = string.ascii_letters + string.digits + "_"


def folded(a, b):
    product = a * b
    return (product & WORD) ^ (product >> 64)


def number(data):
    return int.from_bytes(data, "little")


def short(data):
    """Returns up to 8 bytes as one number, from reads that may overlap."""
    if len(data) >= 4:
        return number(data[:4]) | number(data[-4:]) << 32
    return data[0] | data[len(data) // 2] << 8 | data[-1] << 16 if data else 0


def own(state, data):
    factor = MULTIPLIER ^ len(data)
    if len(data) < 8:
        return folded(state ^ short(data), factor)
    for at in range(0, len(data) - 8, 8):
        state = folded(state ^ number(data[at:at + 8]), factor)
    return folded(state ^ number(data[-8:]), factor)


def block(state, data):
    """Returns the state of the kit's hash after a block of 16 bytes of a longer text."""
    return folded(number(data[:8]) ^ state, number(data[8:]) ^ MULTIPLIER)


def kit(state, data):
    if len(data) <= 8:
        return folded(state ^ short(data), MULTIPLIER ^ 2 * len(data))
    state = state + len(data) & WORD
    for at in range(0, len(data) - 16, 16):
        state = block(state, data[at:at + 16])
    return block(state, data[-16:])


def whole(write, name):
    """Returns the hash of a text that is written whole, as names of macros, of parameters and in hide sets are."""
    return write(SEED, name)


def each(write, name):
    """Returns the hash of a text that is written as its length and byte by byte, as names of files are."""
    state = write(SEED, len(name).to_bytes(8, "little"))
    for byte in name:
        state = write(state, bytes([byte]))
    return state


def colliding(made, hashed, write):
    """Returns these names; checks that the first, the last and those at powers of 2 have one hash."""
    seen = made[:1] + [made[2**i] for i in range((len(made) - 1).bit_length())] + made[-1:]
    assert len({hashed(write, name.encode()) for name in seen}) == 1
    return made


# ---- under the program's own hash

# Eight bytes after which the state is itself eight letters, digits and `_`.  These follow as the next bytes, and xor the state to 0.
# FIRST begins a text of 80 bytes, and the others begin at state 0; each takes a search of about 75,000 tries.
FIRST = "aaaaabkD"
OTHERS = (
    "aaaaasv0", "aaaaaRCW", "aaaaa4YL", "aaaabgpv", "aaaabpLQ", "aaaaby_U", "aaaabLIB", "aaaacioq",
    "aaaacKwh", "aaaaepA6", "aaaaeqWO", "aaaaezw2", "aaaaeEGJ", "aaaaeOLE", "aaaae03Y", "aaaae4Qh",
)
# The words of each pair lead from the state after the earlier pairs, over a text of 208 bytes, to one state.  A search of some
# seconds for each pair finds two words with states that differ as two last bytes do.
PAIRS = (
    ("xFckeFfrqsoda", "gucwDauAuowc2"), ("igAFnratgilda", "gwzzoDtFAixd3"), ("adFmqpmygwBdv", "fxonfipavglb9"),
    ("juizdieCopjaa", "nmqmprAbgzocx"), ("knnlnygvgAAca", "DjdwybCshFbdg"), ("DAfwkgDFzybda", "hpAsnpwasdhaW"),
    ("krBrxmDCoiBaB", "lwriaiiAqEld9"), ("zmEqFhlzhCAcd", "AlzFblrelCfbx"), ("vcllhgkiqAfcA", "lAwDbdBvtrtd0"),
    ("krCyktdeFblcF", "jtychpsvyira8"), ("CetBFCtwDopdP", "xysfvvBtkrBb6"), ("BazgoionrtfcR", "eczmzDrFsFFc8"),
    ("wrCBfDzdtFpbf", "hrcEydgtdsba8"), ("xpwzbEBbvDmba", "ryBoojkrvlwdX"), ("FrAxECFicaCce", "edEjchhjhhlbZ"),
    ("tkFhDyxvfBgbp", "kbeDrFBowxpb6"),
)


def taken_away(state, text):
    """Returns the text, with the state after it appended, in a name of 80 bytes."""
    return text + folded(state ^ number(text.encode()), MULTIPLIER ^ 80).to_bytes(8, "little").decode()


def macro_names(count):
    """Returns up to 65,536 identifiers of 80 bytes with the hash 0 if hashed whole: for macros, parameters and hide sets."""
    blocks = [taken_away(0, text) for text in OTHERS]
    made = [taken_away(SEED, FIRST) + "".join(parts) for parts in itertools.islice(itertools.product(blocks, repeat=4), count)]
    return colliding(made, whole, own)


def long_names(count):
    """Returns up to 65,536 names of 208 bytes with one hash if hashed byte by byte: for files."""
    return colliding(["".join(parts) for parts in itertools.islice(itertools.product(*PAIRS), count)], each, own)


# ---- under the kit's hash

KIT_PAIRS = (
    ("aekfebigCxcaA", "pfgCCAdpoCAc4"), ("uxoDiqlkpFeca", "ovobDCAlFuia2"), ("DrgDyifmialaa", "ucgAcddCqlpb1"),
    ("iAqzuszkcCscP", "tDBbiglyupdb5"), ("tiFxDbinEkwba", "fpowAkbBjqCcu"), ("rdeBkdCiwClba", "recbcliyoAjdJ"),
    ("qpiwxmBmwcgaa", "wavpquhpFwldv"), ("adboslprCdsaa", "jFkddBDnlABbV"), ("xqnzrzmaDoacP", "lrrmftcDhmmb5"),
    ("asuppwfrupsca", "ydceznxfkwtcX"), ("aDbDmCwqllvcB", "ikFnzjCDztrc9"), ("vkeDsCEnojhaa", "luhzcowocpaaM"),
    ("eEhymtycylncp", "BkgzfjAbAFxa8"), ("eetpmlehEBcdP", "yizpljelmqBc2"), ("FbgDDaFojifda", "ghyBhFpDitBdi"),
    ("hEuzgoisCojbR", "scDziEfpkpEd9"),
)


def kit_macro_names(count):
    """Yields identifiers of 32 bytes with the hash 0: the state after the first 16 bytes is written as the next eight, which makes the
    state 0, and it stays 0 whatever the last eight bytes are."""
    for start in ("a%015d" % i for i in itertools.count()):
        state = block(SEED + 32, start.encode()).to_bytes(8, "little")
        if all(byte in LETTERS.encode() for byte in state):
            break
    ends = itertools.islice(itertools.product(LETTERS, repeat=8), count)
    return colliding([start + state.decode() + "".join(end) for end in ends], whole, kit)


def kit_long_names(count):
    return colliding(["".join(parts) for parts in itertools.islice(itertools.product(*KIT_PAIRS), count)], each, kit)
