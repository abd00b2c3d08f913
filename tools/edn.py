"""EDN, the form in which Elle reads histories: written of values, and read again."""

import re

# What EDN is read by: brackets, keywords, texts, and words that are numbers or names.
TOKEN = re.compile(r'#\{|[{}\[\]()]|"(?:[^"\\]|\\.)*"|:[^\s,{}\[\]()"]+|[^\s,{}\[\]()":]+')
BETWEEN = re.compile(r"(?:[\s,]|;[^\n]*)*")
NAMES = {"nil": None, "true": True, "false": False}
ESCAPES = {"n": "\n", "t": "\t", "r": "\r", '"': '"', "\\": "\\", "b": "\b", "f": "\f"}
CLOSING = {"[": "]", "(": ")", "{": "}", "#{": "}"}
MOST_DEPTH = 100


class Wrong(Exception):
    """A text that is no EDN, or none that is read here: the place where it begins to be, and what is wanted."""

    def __init__(self, place, wants):
        super().__init__(f"line {place}: wants {wants}")


class Keyword(str):
    """A word that names itself, with a colon in EDN."""


# ---- writing


def edn(value):
    """A value in EDN."""
    if value is None:
        return "nil"
    if isinstance(value, Keyword):
        return ":" + value
    if isinstance(value, bytes):
        return '"' + "".join(map(letter, value)) + '"'
    if isinstance(value, str):
        return edn(value.encode())
    if isinstance(value, dict):
        return "{" + ", ".join(f"{edn(key)} {edn(one)}" for key, one in value.items()) + "}"
    if isinstance(value, (list, tuple)):
        return "[" + " ".join(map(edn, value)) + "]"
    return str(value)


def letter(byte):
    """A byte as a letter of a text, so that no two values have one text."""
    if byte in b'"\\':
        return "\\" + chr(byte)
    return chr(byte) if 0x20 <= byte < 0x7F else f"\\u{byte:04x}"


# ---- reading


class Reader:
    """Goes through the values of a text, one behind another."""

    def __init__(self, text):
        self.text, self.at, self.token, self.place = text, 0, None, 1
        self.skip()

    def skip(self):
        """Goes on to the next token; none is left at the end."""
        before, self.at = self.at, BETWEEN.match(self.text, self.at).end()
        self.place += self.text.count("\n", before, self.at)
        found = TOKEN.match(self.text, self.at)
        if found is None and self.at < len(self.text):
            raise self.wrong("EDN")
        self.token = found[0] if found else None

    def wrong(self, wants):
        return Wrong(self.place, wants)

    def take(self):
        token = self.token
        self.at += len(token)
        self.place += token.count("\n")
        self.skip()
        return token

    def value(self, depth=0):
        if self.token is None or self.token in ("]", ")", "}") or depth > MOST_DEPTH:
            raise self.wrong("a value")
        if self.token not in CLOSING:
            return self.word()
        opening = self.take()
        items = []
        while self.token != CLOSING[opening]:
            items.append(self.value(depth + 1))
        if opening == "{" and len(items) % 2:
            raise self.wrong("a value behind each key")
        self.take()
        if opening == "{":
            return {held(key): value for key, value in zip(items[::2], items[1::2])}
        return frozenset(map(held, items)) if opening == "#{" else items

    def word(self):
        token = self.take()
        if token[0] == ":":
            return Keyword(token[1:])
        if token[0] == '"':
            return re.sub(r"\\(u[0-9a-fA-F]{4}|.)", lambda found: unescaped(found[1]), token[1:-1], flags=re.S)
        if re.fullmatch(r"[+-]?[0-9]+N?", token):
            return int(token.rstrip("N"))
        if re.fullmatch(r"[+-]?[0-9]+(\.[0-9]*)?([eE][+-]?[0-9]+)?M?", token):
            return float(token.rstrip("M"))
        return NAMES.get(token, token)


def unescaped(text):
    return chr(int(text[1:], 16)) if len(text) == 5 else ESCAPES.get(text, text)


def held(value):
    """A value as a key: a list can't be one here."""
    return tuple(map(held, value)) if isinstance(value, list) else value


def values(text):
    """All values of a text, each with the line in which it begins."""
    reader = Reader(text)
    while reader.token is not None:
        place = reader.place
        yield place, reader.value()
