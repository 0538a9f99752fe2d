"""Damaged tables, sources, texts and images. Each is a change or a few of what was accepted; it may be accepted still."""

import re

from pal.words import FORM, GRAMMAR_WORDS
from services import SERVICES

NUMBERS = (0, 1, 2, 3, 15, 16, 17, 31, 32, 33, 63, 64, 65, 239, 240, 256, 1000, 1001, 4096, 4097, 65535, 65536, 65537, 10**6, 10**6 + 1)
NUMBERS += (2**24, 2**24 + 1, 2**31, 2**32, 2**40, 2**40 + 1, 2**63 - 1, 2**63, 2**64)
OTHER_TYPES = ("20.0", "true", '"x"', "[]", "{}", "1e3", "0x10", "+7", "-0", "1_000", "01", "1979-05-27", "inf")
WORDS = ("DEVICE", "IGNORE", "RESET", "SHUTDOWN", "IDLE", "WARM_START", "SAMPLING", "QUEUING", "SOURCE", "DESTINATION", "FIFO", "PRIORITY")
WORDS += ("", "A", "a.b")
KEYS = ("name", "words", "depth", "refresh", "kind", "x", "offset")


# ---- ways to change a text; each takes the random numbers and the text


def matching(pattern, change):
    """Changes one place that matches: `change` gets what is there, and the whole text."""

    def way(random, text):
        found = list(re.finditer(pattern, text))
        if not found:
            return text
        it = random.choice(found)
        return text[: it.start()] + change(random, it[0], text) + text[it.end() :]

    return way


def one_of(words):
    return lambda random, *_: random.choice(words)


def near(random, text, _=None):
    """A number next to this one, or a very different one."""
    if random.random() < 0.4:
        return str(int(text) + random.choice((-1, 1, 2, -2)))
    return str(random.choice(NUMBERS) * random.choice((1, 1, 1, -1)))


def other_lines(random, text):
    lines = text.splitlines(keepends=True)
    if not lines:
        return text
    place, other = random.randrange(len(lines)), random.randrange(len(lines))
    way = random.choice(("drop", "twice", "swap", "move"))
    if way == "swap":
        lines[place], lines[other] = lines[other], lines[place]
    else:
        line = lines[place] if way == "twice" else lines.pop(place)
        lines[other:other] = [line] if way != "drop" else []
    return "".join(lines)


def other_character(letters):
    def way(random, text):
        place, what = random.randrange(len(text) + 1), random.choice(("put", "drop", "other"))
        put = "" if what == "drop" else random.choice(letters)
        return text[:place] + put + text[place + (what != "put") :]

    return way


def cut(random, text):
    return text[: random.randrange(len(text) + 1)]


def several(random, text, ways):
    for _ in range(random.choice((1, 1, 1, 2, 3))):
        text = random.choice(ways)(random, text)
    return text


# ---- tables


def other_text(random, _, text):
    word = random.choice(re.findall(r'"([^"\n]*)"', text) + list(WORDS))
    if random.random() < 0.2:
        word = other_character("aZ_.9 ")(random, word)
    return '"' + re.sub(r'[\\"\n]', "", word) + '"'


TABLE_NUMBER, TABLE_TEXT = r"(?<== )[0-9]+", r'"[^"\n]*"'
TABLE_WAYS = (
    matching(TABLE_NUMBER, near), matching(TABLE_NUMBER, near), matching(TABLE_NUMBER, one_of(OTHER_TYPES)),
    matching(TABLE_TEXT, other_text), matching(TABLE_TEXT, other_text),
    matching(r"true|false", one_of(("true", "false", "0", '"true"'))), matching(r"(?m)^[a-z]+(?= = )", one_of(KEYS)),
    other_lines, other_lines, other_character('"=[]{},.#\n 0aZ-é\x00\x7f\r\\'), cut,
)


def damaged_table(random, text):
    return several(random, text, TABLE_WAYS).encode()


# ---- device and replay texts

LINE_WORD = r"[a-zA-Z_]+[0-9]*"
LAST_LINES = ("5 FAULT\n", "1099511627776 FAULT\n", "1099511627777 FAULT\n", "7 FAULT x\n", "\n", "9")
LINE_WAYS = (
    other_lines, other_character(" \n0159-aZ_\0\r\té"), matching(r"-?[0-9]+", near),
    matching(LINE_WORD, lambda random, _, text: random.choice(re.findall(LINE_WORD, text))),
    matching(r" -?[0-9]+", lambda random, found, _: found * random.choice((2, 5, 65))),
    lambda random, text: text + random.choice(LAST_LINES),
)


def damaged_lines(random, text):
    return several(random, text, LINE_WAYS).encode("latin-1", "replace")


# ---- sources


def pieces_of(text):
    """The words, blanks and comments of the text, one after another."""
    pieces, place = [], 0
    while place < len(text):
        found = FORM.match(text, place)
        pieces.append(found[0] if found else text[place])
        place += len(pieces[-1])
    return pieces


def spread(random, pieces):
    """The same words over more lines."""
    blanks = ("\n", "\n", " # a comment\n", "\t", " ")
    return [random.choice(blanks) if it.isspace() and random.random() < 0.5 else it for it in pieces]


def damaged_source(random, text):
    pieces = spread(random, pieces_of(text))
    places = [n for n, it in enumerate(pieces) if not it.isspace() and not it.startswith("#")]
    for _ in range(random.choice((1, 1, 1, 2, 3))):
        place = random.choice(places)
        pieces[place] = other_word(random, [pieces[it] for it in places], pieces[place])
    text = "".join(pieces)
    if random.random() < 0.1:
        text = other_character("@$éÿ\r\f\0\"'.:<>=-_Aa0 \n")(random, text)
    return (cut(random, text) if random.random() < 0.05 else text).encode("latin-1")


ODD_WORDS = ("x9", "a" * 31, "0", *map(str, NUMBERS), *"(){}[];,", "->", ":=", "<=", "not")


def other_word(random, words, word):
    if word.isdigit() and random.random() < 0.6:
        return near(random, word).lstrip("-")
    if random.random() < 0.6:
        return alike(random, words, word)
    chosen = random.choice(words), random.choice(sorted(GRAMMAR_WORDS)), random.choice(SERVICES).name, random.choice(ODD_WORDS)
    return random.choices(("", f"{word} {word}", *chosen), (20, 10, 30, 15, 10, 15))[0]


def class_of(word):
    """What may stand in place of the word, for the grammar."""
    found = FORM.fullmatch(word)
    return found.lastgroup if found and word not in GRAMMAR_WORDS else word


def alike(random, words, word):
    """Another word of the text that the grammar takes in the same places."""
    others = [it for it in words if class_of(it) == class_of(word) != "sign"]
    if word[:1].isupper():
        others = random.sample([it.name for it in SERVICES], 12)
    return random.choice([*others, random.choice(others or [word]), "a" * 31 if class_of(word) == "name" else word])


# ---- images


def damaged_image(random, data):
    data = bytearray(data)
    for _ in range(random.choice((1, 1, 1, 2))):
        place, way = image_place(random, len(data)), random.random()
        if way < 0.7:
            data[place : place + 1] = bytes([changed_byte(random, data[place] if place < len(data) else 0)])
        elif way < 0.8:
            del data[place : place + random.randint(1, 4)]
        elif way < 0.9:
            data[place:place] = random.choices((0, 1, 255), k=random.randint(1, 4))
        else:
            del data[place:]
    return bytes(data)


def image_place(random, length):
    """A place, mostly near the beginning or the end."""
    way = random.random()
    if way < 0.5:
        return random.randrange(min(length, 300) + 1)
    return max(0, length - random.randrange(1, 200)) if way < 0.75 else random.randrange(length + 1)


def changed_byte(random, byte):
    return random.choice((0, 1, 2, 3, 4, 16, 17, 64, 65, 128, 255, byte ^ 1, (byte + 1) % 256, (byte - 1) % 256, random.randrange(256)))
