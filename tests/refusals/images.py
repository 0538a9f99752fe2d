"""Damaged images: which are tried, and what the loader has to answer by the second reading of docs/IMAGE.md (`tests/independent`)."""

import random
import sys
from dataclasses import dataclass
from pathlib import Path

sys.dont_write_bytecode = True
sys.path.insert(0, str(Path(__file__).resolve().parent.parent / "independent"))
from image import code_places, load_image  # noqa: E402
from model import WRITTEN_COSTS  # noqa: E402
from refusal import Refusal  # noqa: E402

COSTS = len(WRITTEN_COSTS)
# The bytes of the costs.
COST_BYTES = slice(15, 15 + 2 * COSTS)


def verdict(image):
    """What a run of the image has to answer."""
    try:
        load_image(image)
    except Refusal as why:
        return why.words
    return "runs"


def as_first(image):
    """The image as one of version 1, where that version has its costs and its limits; else as it is."""
    first = image[:8] + (1).to_bytes(2, "little") + image[10:15] + image[COST_BYTES.stop :]
    written = b"".join(it.to_bytes(2, "little") for it in WRITTEN_COSTS.values())
    return first if image[COST_BYTES] == written and verdict(first) == "runs" else image


def lay_old(folder):
    """Lays the image in a folder once more, as an older one that may be upgraded to it."""
    (folder / "old").write_bytes(as_first((folder / "image").read_bytes()))


@dataclass(frozen=True)
class Damage:
    """The length of a damaged image, the bytes that are changed, and the answer, where a rule of the page says it at once."""

    length: int
    changes: tuple
    answer: str | None = None

    def of(self, image):
        """The damaged image."""
        damaged = bytearray(image[: self.length].ljust(self.length, b"\0"))
        for place, byte in self.changes:
            damaged[place] = byte
        return bytes(damaged)

    def line(self, ticks):
        """The line for the program `library_tests`."""
        return " ".join(["image", str(self.length), str(ticks), *(f"{place}={byte}" for place, byte in self.changes)])


def others(image, places):
    """Every other value of each of these bytes."""
    return [(place, byte) for place in places for byte in range(256) if byte != image[place]]


def smallest_damages(image):
    """What is told of an image of the smallest module; behind the module action stand the costs, if it has any."""
    size, costs = len(image), 0 if image[8] == 1 else 2 * COSTS
    (instructions,) = code_places(image)
    damages = [Damage(length, (), "image 1") for length in range(size)]
    damages.append(Damage(size + 1, (), "image 5"))
    damages += [Damage(size, (it,), "image 2") for it in others(image, range(8))]
    damages.append(Damage(size, ((8, 0), (9, 0)), "image 2"))
    limits = ((14, 3), (29 + costs, 4), (20 + costs, 65), (159 + costs, 2), (159 + costs, 0))
    damages += [Damage(size, (it,), "image 3") for it in limits]
    for place in range(15, 15 + costs, 2):
        damages += [Damage(size, ((place, low), (place + 1, high)), "image 3") for low, high in ((0, 0), (0xE9, 3))]
    damages += [Damage(size, (it,), "runs") for it in others(image, instructions)]
    return damages


def edge_damages(image):
    """Each byte outside the code with the values at which a rule may change, and with each bit turned."""
    code, damages = set().union(*code_places(image)), []
    for place in range(len(image)):
        if place not in code:
            old = image[place]
            values = {0, 1, 255, (old + 1) % 256, (old - 1) % 256, *(old ^ 1 << bit for bit in range(8))}
            damages += [Damage(len(image), ((place, it),)) for it in sorted(values - {old})]
    return damages


def random_damages(image, name, number=2000):
    """So many random places with random other values; the name is the seed."""
    chosen = random.Random(name)
    places = [chosen.randrange(len(image)) for _ in range(number)]
    return [Damage(len(image), ((place, image[place] ^ chosen.randrange(1, 256)),)) for place in places]


def whole_damages(image):
    """Every other value of every byte."""
    return [Damage(len(image), (it,)) for it in others(image, range(len(image)))]
