"""Picks pages and contents that collide in a map of hashes with a fixed seed: the one that the kit's maps have where they are
given none. In a map whose seed comes from outside they are as good as any others. Beside these it picks pages of one slot in
ksmbook's own table of keys (ksm_pages/src/slot.rt), and contents of one place in its unstable tree."""

import functools
import itertools

import talk

WORD = 2 ** 64
# What the kit's hasher begins with, and what it multiplies a key of eight bytes by.
SEED = 0x243F_6A88_85A3_08D3
FACTOR = 0x9E37_79B9_7F4A_7C15 ^ 16
# The bits of a hash that say in which of 128 groups a key is looked for, and those that are compared there before the key is.
ALIKE = 2 ** 7 - 1 | 0xFF << 24
# Pages have numbers below this.
PAGES = 2 ** 27
# The slots of ksmbook's table of keys.
SLOTS = 2_048
# What the number of a content's first words is multiplied by, before the next word is added.
DIGEST_FACTOR = 11_400_714_819_323_198_485


def colliding():
    """Pages of guest 0, by their numbers, whose hashes are all zero where they are looked at first."""
    keys = range(SEED // PAGES * PAGES, SEED // PAGES * PAGES + PAGES)
    product = keys[0] * FACTOR
    for key in keys:
        folded = product ^ product >> 64
        if not (folded ^ folded >> 32) & ALIKE:
            yield key ^ SEED
        product += FACTOR


@functools.cache
def pages(count):
    """So many of them. They are the same each time, and take some seconds."""
    return list(itertools.islice(colliding(), count))


def in_a_slot(count):
    """So many pages of guest 0, by their numbers, that have one slot."""
    return range(0, count * SLOTS, SLOTS)


def contents(count):
    """So many contents with one number for their hash, each with its digits."""
    words = talk.page_words()
    for first in range(1, count + 1):
        yield digits([first, -first * DIGEST_FACTOR % WORD] + [0] * (words - 2))


def contents_in_a_place(count):
    """So many contents with one digest in ksmbook's unstable tree (ksm_pages/src/unstable.rt), each with its digits."""
    words = talk.page_words()
    for first in range(1, count + 1):
        mixed = first * DIGEST_FACTOR % WORD
        yield digits([first, -((mixed << 32) + (mixed >> 32)) % WORD] + [0] * (words - 2))


def digits(page):
    """The digits of a page's words."""
    return b"".join(word.to_bytes(8, "little") for word in page).hex()
