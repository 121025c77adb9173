"""Names and addresses that a hasher with a fixed key finds alike, others of the same lengths, and how names crowd in
the tables of a hasher whose key is a digest of the input.

The kit's own hasher (FoldHasher) multiplies what it reads, mixed with its state, by what it reads next, mixed with a
constant. So whoever makes one factor 0 makes the state 0, whatever the other factor is:

- of an address, where its upper half is the constant: all of one /64 are alike;
- of a text, where eight of its bytes are the state that stood before them: what follows in it changes nothing.

A text feeds a hasher words of eight bytes, the last behind a mark that no text has. Without it a hasher that joins what
it is fed would find those keys of several texts alike whose texts joined are the same, whatever its own key is.
"""

import hashlib
import itertools
import random

WORD = 2**64 - 1
MULTIPLIER = 0x9E3779B97F4A7C15
INITIAL = 0x243F6A8885A308D3
LETTERS = b"ABCDEFGHIJKLMNOPQRSTUVWXYZabcdefghijklmnopqrstuvwxyz0123456789"
OF_NAMES = LETTERS + b"_.-"
# what may stand in a JSON text as it is
OF_TEXTS = bytes(it for it in range(0x21, 0x7F) if it not in b'"\\')


def low_word(of, at):
    return int.from_bytes(of[at : at + 8], "little")


def folded(one, other):
    product = one * other
    return (product & WORD) ^ (product >> 64)


def fold(state, written):
    """The state of the kit's hasher after these bytes, of which there are none or more than eight, or one."""
    length = len(written)
    if length <= 8:
        middle = [written[0], written[length // 2] << 8, written[-1] << 16] if written else [0]
        short = low_word(written, 0) & 0xFFFFFFFF | low_word(written, length - 4) << 32 if length >= 4 else sum(middle)
        return folded(state ^ short, MULTIPLIER ^ 2 * length)
    state, at = (state + length) & WORD, 0
    while length - at > 16:
        state = folded(low_word(written, at) ^ state, low_word(written, at + 8) ^ MULTIPLIER)
        at += 16
    return folded(low_word(written, max(length - 16, 0)) ^ state, low_word(written, length - 8) ^ MULTIPLIER)


def letters(rng, alphabet, count):
    return bytes(rng.choice(alphabet) for _ in range(count))


def consists_of(state, alphabet):
    """The state as eight letters, the lowest first; None where it is none."""
    spelled = state.to_bytes(8, "little")
    return spelled if all(it in alphabet for it in spelled) else None


def endings(rng, alphabet, before, count):
    """So many texts, each with eight letters of its own behind these."""
    found = set()
    while len(found) < count:
        found.add(before + letters(rng, alphabet, 8))
    return [it.decode("ascii") for it in sorted(found)]


def namespaces(count):
    """So many names of namespaces that are alike, and so many that aren't."""
    rng = random.Random(1)
    start = (INITIAL + 32) & WORD
    for number in itertools.count():
        first = b"/ns/" + f"{number:012}".encode("ascii")
        spelled = consists_of(folded(low_word(first, 0) ^ start, low_word(first, 8) ^ MULTIPLIER), OF_TEXTS)
        if spelled:
            break
    plain = [f"/ns/{it}" for it in endings(rng, OF_TEXTS, letters(rng, OF_TEXTS, 20), count)]
    return endings(rng, OF_TEXTS, first + spelled, count), plain


def containers(count):
    """A network, so many names of containers that are alike in it, and so many that aren't."""
    rng = random.Random(2)
    while True:
        network = letters(rng, LETTERS, 6)
        spelled = consists_of((fold(INITIAL, network) + 16) & WORD, OF_NAMES)
        if spelled and spelled[0] in LETTERS:
            break
    plain = endings(rng, OF_NAMES, letters(rng, LETTERS, 8), count)
    return network.decode("ascii"), endings(rng, OF_NAMES, spelled, count), plain


def joined():
    """Names of 960 attachments in 64 networks: network, container and interface, which joined are one text; and names
    of the same lengths, no two of which joined are the same."""
    alike, plain = [], []
    for first in range(1, 65):
        for last in range(1, 16):
            lengths = 64 - first, 15 - last
            alike.append(("n" * first, "n" * lengths[0] + "x" + "e" * lengths[1], "e" * last))
            network, end = "n" * (first - 1) + "m", chr(ord("f") + last)
            plain.append((network, "n" * lengths[0] + "x" + "e" * lengths[1], "e" * (last - 1) + end))
    return alike, plain


def groups_of(word):
    return ":".join(f"{word >> shift & 0xFFFF:x}" for shift in (48, 32, 16, 0))


# the /64 whose addresses are alike, and another
ALIKE_64 = groups_of(MULTIPLIER)
PLAIN_64 = groups_of(MULTIPLIER ^ 0x10000)


# ---- the hasher of the tables: SipHash-1-3 that has taken in a digest


def sip_round(v0, v1, v2, v3):
    v0 = (v0 + v1) & WORD
    v2 = (v2 + v3) & WORD
    v1 = (v1 << 13 & WORD | v1 >> 51) ^ v0
    v3 = (v3 << 16 & WORD | v3 >> 48) ^ v2
    v0 = v0 << 32 & WORD | v0 >> 32
    v2 = (v2 + v1) & WORD
    v0 = (v0 + v3) & WORD
    v1 = (v1 << 17 & WORD | v1 >> 47) ^ v2
    v3 = (v3 << 21 & WORD | v3 >> 43) ^ v0
    return v0, v1, v2 << 32 & WORD | v2 >> 32, v3


def words_of(text):
    """The words of a text: eight bytes each, the lowest first, and what is left behind a mark that tells how many."""
    whole = len(text) // 8 * 8
    rest = bytes([0xF8 + len(text) - whole]) + text[whole:]
    return [low_word(text, at) for at in range(0, whole, 8)] + [int.from_bytes(rest, "big")]


def sip(state, words):
    """The state after these words."""
    for word in words:
        v0, v1, v2, v3 = sip_round(state[0], state[1], state[2], state[3] ^ word)
        state = v0 ^ word, v1, v2, v3
    return state


def finished(state):
    """The hash of what was written."""
    v0, v1, v2, v3 = state
    state = v0, v1, v2 ^ 0xFF, v3
    for _ in range(3):
        state = sip_round(*state)
    return state[0] ^ state[1] ^ state[2] ^ state[3]


SIP = (0x736F6D6570736575, 0x646F72616E646F6D, 0x6C7967656E657261, 0x7465646279746573)


def digest_of(words, files):
    """The key of the tables: of the words, and of the files as they are read."""
    return hashlib.new("sha512_256", "".join(words).encode("utf-8") + b"".join(files)).digest()


def crowding(digest, keys):
    """How the keys crowd in a table under this digest: the sum of the squares of how many share a group of lanes."""
    keyed = sip(SIP, [low_word(digest, at) for at in range(0, 32, 8)])
    groups = 1 << max((len(keys) // 9).bit_length(), 0)
    loads = {}
    for it in keys:
        found = finished(sip(keyed, it))
        group = (found ^ found >> 32) & 0xFFFFFFFF & groups - 1
        loads[group] = loads.get(group, 0) + 1
    return sum(it * it for it in loads.values())


def text_key(*texts):
    """The words of a key of texts."""
    return [it for text in texts for it in words_of(text.encode("utf-8"))]
