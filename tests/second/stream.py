"""The program `blocks` (docs/RULES.md section 7.4), by plain methods: data to words and back, and what is said on the way.

    stream.py encode T < data > words
    stream.py correct T [--strict] < words > data

The check bits of a word come from a division byte by byte, over a table of the remainders of single bytes, which are long
divisions; whether a word can be corrected is decided by `corrector.correct`.
"""

import sys

sys.dont_write_bytecode = True

import corrector as C
import field

STRENGTHS = range(1, C.STRONGEST + 1)
END, MARK = 0x80, 255
LAST_BIT = 0x80  # of byte 255: no bit of a word


def start(t):
    """Where the data start: behind the bytes that hold the 11 t check bits."""
    return -(-11 * t // 8)


def capacity(t):
    """How many bytes of data a word carries."""
    return MARK - start(t)


def content(t, piece, last):
    """The 256 bytes of a word before it is encoded."""
    padded = piece + bytes([END]) + bytes(capacity(t) - 1 - len(piece)) if last else piece
    word = bytes(start(t)) + padded + bytes([last])
    assert len(word) == C.BYTES
    return word


_remainders = {}


def remainders(t):
    """The remainder of each byte, moved up by the degree of the generator."""
    if t not in _remainders:
        g = C.generator_of(t)
        _remainders[t] = [field.long_division(byte << (g.bit_length() - 1), g) for byte in range(256)]
    return _remainders[t]


def encoded(t, word):
    """A word whose check bits are 0, with its check bits."""
    degree, table, rest = 11 * t, remainders(t), 0
    number = int.from_bytes(word, "little") >> degree
    for byte in number.to_bytes(C.BYTES, "big"):
        rest = rest << 8 | byte
        rest = rest & (1 << degree) - 1 ^ table[rest >> degree]
    # so far the remainder of the data; of the data moved up by the degree, as many zeros more
    for _ in range(degree):
        rest <<= 1
        if rest >> degree:
            rest ^= C.generator_of(t)
    return (number << degree | rest).to_bytes(C.BYTES, "little")


def encode(t, data):
    """The words of a stream of data."""
    size = capacity(t)
    full = len(data) // size
    words = [encoded(t, content(t, data[k * size : (k + 1) * size], False)) for k in range(full)]
    return b"".join(words) + encoded(t, content(t, data[full * size :], True))


def taken_apart(t, word):
    """The data of a codeword and whether it is the last; None if no encoder of streams writes it."""
    if int.from_bytes(word[: start(t)], "little") >> 11 * t:
        return None
    body, mark = word[start(t) : MARK], word[MARK]
    if mark == 0:
        return body, False
    stripped = body.rstrip(b"\0")
    if mark != 1 or stripped[-1:] != bytes([END]):
        return None
    return stripped[:-1], True


def said_of(k, what):
    """A message on a word, by its number from 0."""
    return "blocks: word %d (byte %d): %s\n" % (k + 1, C.BYTES * k, what)


def correct(t, stream, strict=False, decide=C.correct):
    """The data, and what is said."""
    data, said = [], []
    words = flips = far = strange = 0
    last = bad = False
    count = len(stream) // C.BYTES
    for k in range(count):
        if last:
            said.append(said_of(k, "behind the last word: nothing from here on is written"))
            break
        word = bytearray(stream[C.BYTES * k : C.BYTES * (k + 1)])
        cleared = word[MARK] >> 7
        word[MARK] &= LAST_BIT - 1
        outcome, changed, after = decide(t, bytes(word))
        found = taken_apart(t, after) if outcome == 0 else None
        words += 1
        if outcome == 0:
            flips += changed + cleared
        bad = found is None
        if not bad:
            data.append(found[0])
            last = found[1]
            continue
        far, strange = far + (outcome != 0), strange + (outcome == 0)
        why = "not a word that blocks encode writes" if outcome == 0 else "cannot be corrected"
        if strict:
            said.append(said_of(k, why + ": stopped in front of it"))
            return b"".join(data), "".join(said) + summary(words, flips, far, strange)
        said.append(said_of(k, why + ": %d bytes of zeros stand in its place" % capacity(t)))
        data.append(bytes(capacity(t)))
    short = len(stream) % C.BYTES
    if short:
        said.append(said_of(count, "%d bytes in place of 256: nothing of it is written" % short))
    if bad and not short:
        said.append("blocks: the final word is lost: the end of the data is not known\n")
    elif not last:
        said.append("blocks: the last word is missing: data may be missing at the end\n")
    return b"".join(data), "".join(said) + summary(words, flips, far, strange)


def summary(words, flips, far, strange):
    """The line at the end."""
    ours = ", not ours %d" % strange if strange else ""
    return "blocks: words %d, flips %d, uncorrectable %d%s\n" % (words, flips, far, ours)


def main():
    """The two commands."""
    words = sys.argv[1:]
    if words in ([], ["--help"]):
        sys.stdout.write(__doc__)
        return
    strict = words[2:] == ["--strict"]
    if words[0] not in ("encode", "correct") or words[1:2] not in [[str(t)] for t in STRENGTHS] or words[2:] and not (strict and words[0] == "correct"):
        sys.exit("stream.py: encode T, or correct T [--strict], T from 1 to 8")
    data = sys.stdin.buffer.read()
    if words[0] == "encode":
        sys.stdout.buffer.write(encode(int(words[1]), data))
        return
    found, said = correct(int(words[1]), data, strict)
    sys.stdout.buffer.write(found)
    sys.stderr.write(said)


if __name__ == "__main__":
    main()
