#!/usr/bin/env python3
"""PCG's generator XSL RR 128/64, by which sites are selected.

By the published reference: O'Neill, "PCG: a family of simple fast space-efficient statistically good
algorithms for random number generation" (HMC-CS-2014-0905), and the C library's pcg_setseq_128_xsl_rr_64:
the state is multiplied and incremented, the halves are xored, and the result is rotated by the top six
bits. A seed of 64 bits is made 32 bytes by the generator XSH RR 64/32, four bytes a word, as the crate
rand_core says at `seed_from_u64`: its state begins at the seed and its increment is 11634580027462260723.
"""

MASK64 = (1 << 64) - 1
MASK128 = (1 << 128) - 1
MULTIPLIER_64 = 6364136223846793005
MULTIPLIER_128 = (2549297995355413924 << 64) + 4865540595714422341


def rotated(value, by, width):
    by %= width
    return (value >> by | value << (width - by)) & ((1 << width) - 1)


def seed_bytes(seed):
    """32 bytes, of 8 words of XSH RR 64/32 after each step."""
    out = b""
    state = seed
    for _ in range(8):
        state = (state * MULTIPLIER_64 + 11634580027462260723) & MASK64
        word = (state >> 18 ^ state) >> 27 & 0xFFFFFFFF
        out += rotated(word, state >> 59, 32).to_bytes(4, "little")
    return out


class Generator:
    def __init__(self, state, increment):
        self.increment = increment | 1
        self.state = (state + self.increment) & MASK128
        self.step()

    def step(self):
        self.state = (self.state * MULTIPLIER_128 + self.increment) & MASK128

    def word(self):
        self.step()
        return rotated(self.state >> 64 ^ self.state & MASK64, self.state >> 122, 64)


def of_seed(seed):
    data = seed_bytes(seed)
    return Generator(int.from_bytes(data[:16], "little"), int.from_bytes(data[16:], "little"))


def words(seed, count):
    """The first words of a seed. The generator is checked against the words of the C library's demo first."""
    demo = Generator(42, 54 << 1)
    known = [0x86B1DA1D72062B68, 0x1304AA46C9853D39, 0xA3670E9E0DD50358, 0xF9090E529A7DAE00, 0xC85B9FD837996F2C, 0x606121F8E3919196]
    assert [demo.word() for _ in known] == known
    generator = of_seed(seed)
    return [generator.word() for _ in range(count)]
