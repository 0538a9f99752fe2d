"""Damaged images, all of them in one process of `library_tests`, judged against the second reading of the page."""

import tempfile
import tomllib
from pathlib import Path

import calls
import images
import trial
from trial import Told

EXAMPLES = calls.ROOT / "examples"
# The image of the smallest module as it is built, and the one of version 1 that is kept.
SMALLEST = ["smallest", "kept"]
# The image of this example is damaged byte by byte, those of the others at random.
EDGES = "telemetry"
WHOLE = [SMALLEST[0], EDGES]
NAMES = [*SMALLEST, EDGES, "air_data", "fault_contained", "isolation", "modes", "rate_groups", "shared_resource"]


def image_of(mb, name, folder):
    """An image of the smallest module, or that of an example."""
    if name == "kept":
        return (calls.ROWS / "smallest/image").read_bytes()
    if name in SMALLEST:
        table, sources = calls.ROWS / name / "table", [calls.ROWS / name / "source"]
    else:
        table = EXAMPLES / name / "table.toml"
        partitions = tomllib.loads(table.read_text())["partition"]
        sources = [EXAMPLES / name / f"{it['name']}.pal" for it in partitions]
    answer = trial.run([mb, "build", table, "image", *sources], folder)
    if answer.status != 0:
        raise trial.Wrong(f"{name}: {answer}")
    return (folder / "image").read_bytes()


def damages_of(image, name, is_whole):
    """What is done to an image."""
    if is_whole:
        return images.whole_damages(image)
    if name in SMALLEST:
        return images.smallest_damages(image)
    return images.edge_damages(image) if name == EDGES else images.random_damages(image, name)


def sweep(mb, library_tests, names, is_whole):
    """Damages these images, and compares what the runs of what comes out answer with what the page says. One process of `library_tests` runs
    them all, with a line for each."""
    told = Told()
    lines, tried = [], []
    with tempfile.TemporaryDirectory() as room:
        folder = Path(room)
        for name in names:
            image = image_of(mb, name, folder)
            (folder / f"{name}.base").write_bytes(image)
            ticks = 128 if name in SMALLEST else 200
            damages = damages_of(image, name, is_whole)
            lines += [f"base {name}.base", *(it.line(ticks) for it in damages)]
            tried += [(name, image, it) for it in damages]
        text = "".join(f"{it}\n" for it in lines).encode()
        answer = trial.run([library_tests], folder, text, seconds=3600)
    found = answer.out.decode().splitlines()
    if answer.status != 0 or answer.err or len(found) != len(tried):
        told.wrong.append(f"{answer}, {len(found)} verdicts on {len(tried)} images")
    for (name, image, damage), had in zip(tried, found):
        wanted = images.verdict(damage.of(image))
        if damage.answer not in (None, wanted):
            told.wrong.append(f"{name}, {damage}: the page has '{wanted}'")
        if had != wanted:
            told.wrong.append(f"{name}, {damage}: wanted '{wanted}', had '{had}'")
        told.count("damaged images")
        told.count(had)
    return told
