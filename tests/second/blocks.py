"""Cases and expected lines for the block corrector and the block encoder.

    blocks.py cases --seed S --count N > cases.bin   (N words for each strength and number of errors)
    blocks.py lines < cases.bin > lines
    blocks.py encoded < cases.bin > lines            (the same words, encoded: check bits in place of flips)
    blocks.py tally < lines
    blocks.py trial --count N < cases.bin            (strengths 1 and 2, and N words of 3, by trial too)

A case is the strength and the number of bytes, 16 bits each, low byte first,
and then the bytes. A line is both numbers, `|`, the outcome, where it is 0 the
number of flips, `|`, and every byte afterwards, in hex.
"""

import argparse
import random
import sys

sys.dont_write_bytecode = True

import corrector as C

STRENGTHS = range(1, C.STRONGEST + 1)
WRONG_STRENGTHS = (0, 9, 10, 255, 256, 257, 264, 65535)
WRONG_LENGTHS = (0, 1, 2, 255, 257, 258, 512, 4096)
LAST_BIT = C.BITS


def pack(strength, word):
    """The bytes of a case."""
    return strength.to_bytes(2, "little") + len(word).to_bytes(2, "little") + bytes(word)


def unpack(data):
    """(strength, word) for each case."""
    at = 0
    while at < len(data):
        if at + 4 > len(data):
            sys.exit("blocks.py: the cases end early")
        strength, length = (int.from_bytes(data[k : k + 2], "little") for k in (at, at + 2))
        at += 4 + length
        if at > len(data):
            sys.exit("blocks.py: the cases end early")
        yield strength, data[at - length : at]


# What is tried.


def any_codeword(rng, t):
    """A codeword of strength t."""
    return C.codeword(t, rng.getrandbits(C.data_bits(t)))


def any_word(rng):
    """256 bytes, the last bit 0."""
    return rng.getrandbits(C.BITS).to_bytes(C.BYTES, "little")


def planted(rng, count):
    """A codeword of each strength with 0 to t + 4 errors at any places, `count` times."""
    for t in STRENGTHS:
        for errors in range(t + 5):
            for _ in range(count):
                yield t, C.flipped(any_codeword(rng, t), rng.sample(range(C.BITS), errors))


def bursts(rng):
    """Errors side by side: at the front, at the end, anywhere; and every bit of a byte."""
    for t in STRENGTHS:
        word = any_codeword(rng, t)
        for size in (1, t, t + 1, 2 * t, 2 * t + 1):
            for first in (0, C.BITS - size, rng.randrange(C.BITS - size)):
                yield t, C.flipped(word, range(first, first + size))
        for byte in (0, rng.randrange(1, C.BYTES - 1)):
            yield t, C.flipped(word, range(8 * byte, 8 * byte + 8))


def last_byte(rng):
    """Errors among the seven bits of the last byte, with others and alone."""
    for t in STRENGTHS:
        word = any_codeword(rng, t)
        last = range(C.BITS - 7, C.BITS)
        for size in range(1, min(t, 7) + 1):
            yield t, C.flipped(word, rng.sample(last, size))
        yield t, C.flipped(word, last)
        yield t, C.flipped(word, [C.BITS - 1] + rng.sample(range(C.BITS - 7), t - 1))
        yield t, C.flipped(word, [C.BITS - 1] + rng.sample(range(C.BITS - 7), t))


def special(rng):
    """All zeros and all ones, which are codewords, near them, and words that have nothing to do with a codeword."""
    zeros, ones = bytes(C.BYTES), C.flipped(bytes(C.BYTES), range(C.BITS))
    for t in STRENGTHS:
        for word in (zeros, ones):
            for errors in (0, 1, t, t + 1):
                yield t, C.flipped(word, rng.sample(range(C.BITS), errors))
        for _ in range(4):
            yield t, any_word(rng)
        for period in (3, 23, 89):
            yield t, C.flipped(zeros, range(0, C.BITS, period))


def of_others(rng):
    """Codewords of one strength, with errors, given to another."""
    for made in STRENGTHS:
        for t in STRENGTHS:
            if made != t:
                word = any_codeword(rng, made)
                yield t, C.flipped(word, rng.sample(range(C.BITS), rng.randrange(min(made, t) + 1)))


def refused(rng):
    """Wrong lengths, the last bit set, wrong strengths, and several of these at once."""
    for t in (*STRENGTHS, *WRONG_STRENGTHS):
        for length in WRONG_LENGTHS:
            yield t, rng.randbytes(length)
            yield t, bytes(length)
        good = any_codeword(rng, t if t in STRENGTHS else 8)
        for word in (good, any_word(rng), bytes(C.BYTES)):
            yield t, C.flipped(word, [LAST_BIT])
            yield t, word
        yield t, b"\xff" * C.BYTES
        yield t, good + b"\0"
        yield t, good[:-1]


def make_cases(seed, count):
    """All cases of a seed."""
    rng = random.Random(seed)
    for kind in (planted(rng, count), bursts(rng), last_byte(rng), special(rng), of_others(rng), refused(rng)):
        yield from kind


# The lines.


def line(strength, word, answer):
    """What must be printed of a case."""
    outcome, flips, after = answer
    told = "0 %d" % flips if outcome == 0 else "%d" % outcome
    return ("%d %d | %s | %s" % (strength, len(word), told, after.hex())).rstrip()


def tally(lines):
    """How many lines there are of each strength, by the number of flips and by refusal."""
    counts = {}
    for one in lines:
        head, told, _ = (one + " ").split("|")
        strength = int(head.split()[0])
        who = "strength %d" % strength if strength in STRENGTHS else "no strength"
        outcome, *flips = told.split()
        what = "outcome 0, flips %s" % flips[0] if flips else "outcome %s" % outcome
        counts.setdefault(who, {}).setdefault(what, 0)
        counts[who][what] += 1
    for who in sorted(counts):
        print("%s: %s" % (who, "; ".join("%s: %d" % pair for pair in sorted(counts[who].items()))))
    print("cases: %d" % len(lines))


def compare_by_trial(cases, count):
    """Every word of strengths 1 and 2 that 22 does not turn away, and `count` of strength 3, once more by trial."""
    words = {t: [] for t in (1, 2, 3)}
    for strength, word in cases:
        if strength in words and not C.refusal(strength, word):
            words[strength].append(word)
    words[3] = [words[3][k * len(words[3]) // count] for k in range(count)]
    for strength, chosen in words.items():
        for word in chosen:
            answer = C.by_trial(strength, word)
            if answer != C.correct(strength, word):
                sys.exit("blocks.py: by trial otherwise: %s" % line(strength, word, answer))
    print("by trial of places too: %s" % ", ".join("strength %d: %d" % (t, len(words[t])) for t in words))


def main():
    """One of the five commands."""
    parser = argparse.ArgumentParser(
        description=__doc__, epilog="Exit status: 0 done; 1 the words of a case, or trial, do not agree; 2 unknown words.", formatter_class=argparse.RawDescriptionHelpFormatter
    )
    commands = parser.add_subparsers(dest="command", required=True)
    cases = commands.add_parser("cases")
    cases.add_argument("--seed", type=int, default=1)
    cases.add_argument("--count", type=int, default=4)
    commands.add_parser("lines")
    commands.add_parser("encoded")
    commands.add_parser("tally")
    trial = commands.add_parser("trial")
    trial.add_argument("--count", type=int, default=2)
    options = parser.parse_args()
    if options.command == "cases":
        for case in make_cases(options.seed, options.count):
            sys.stdout.buffer.write(pack(*case))
    elif options.command == "tally":
        tally(sys.stdin.read().splitlines())
    elif options.command == "trial":
        compare_by_trial(unpack(sys.stdin.buffer.read()), options.count)
    else:
        call = C.correct if options.command == "lines" else C.encode
        for strength, word in unpack(sys.stdin.buffer.read()):
            sys.stdout.write(line(strength, word, call(strength, word)) + "\n")


if __name__ == "__main__":
    main()
