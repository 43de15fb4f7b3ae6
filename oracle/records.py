#!/usr/bin/env python3
"""What `records` has to write: its tables read a second time.

    oracle/records.py [--form FORM] [--depth LEVELS] [--repeats RULE] SCRIPT < lines.jsonl

It was written from RFC 8259, the tables of README.md and the rules of docs/DECISIONS.md, and shares nothing with the crates. It
is short and slow. It leaves out what needs more than 4294967295 bytes, what is refused before the script is read, and streams
and memory that fail.

A document is None, a bool, an int, a str, a Decimal, a list or an Object.
"""

import argparse
import re
import sys

WHITESPACE = b" \t\n\r"
OPERATORS = b"{}[]:,"
QUOTE, BACKSLASH = b'"\\'
NUMBER = re.compile(rb"-?(0|[1-9][0-9]*)(\.[0-9]+)?([eE][+-]?[0-9]+)?")
ESCAPES = dict(zip(b'"\\/bfnrt', '"\\/\b\f\n\r\t'))
SHOWN = {'"': '\\"', "\\": "\\\\", "\b": "\\b", "\t": "\\t", "\n": "\\n", "\f": "\\f", "\r": "\\r"}
ATOMS = {
    ord("t"): (b"true", True, "ExpectedTrue"),
    ord("f"): (b"false", False, "ExpectedFalse"),
    ord("n"): (b"null", None, "ExpectedNull"),
}
SCRIPT_DEPTH = 1024


class Decimal(str):
    """A number with a fraction or an exponent, or an integer below -2^63 or above 2^64 - 1, as it stands."""


class Object:
    """The members of an object, as pairs of a key and a value."""

    def __init__(self, members):
        self.members = members

    def place(self, key):
        return next((i for i, (name, _) in enumerate(self.members) if name == key), None)


class Fault(Exception):
    """The first fault of a line: its kind, and the index and the byte, if there is one."""

    def __init__(self, kind, index=0, byte=None):
        super().__init__(kind)
        self.kind, self.index, self.byte = kind, index, byte


class Refusal(Exception):
    """Why a script is refused."""


# Reading


def real_quotes(line):
    """The indexes of the quotes with an even number of backslashes directly before them."""
    backslashes = 0
    for index, byte in enumerate(line):
        if byte == QUOTE and backslashes % 2 == 0:
            yield index
        backslashes = backslashes + 1 if byte == BACKSLASH else 0


def positions(line):
    """The indexes at which tokens begin, and the closing quote of each opening one."""
    quotes = list(real_quotes(line))
    if len(quotes) % 2 == 1:
        raise Fault("Syntax")
    closing = dict(zip(quotes[::2], quotes[1::2]))
    if any(byte < 0x20 for start, end in closing.items() for byte in line[start:end]):
        raise Fault("Syntax")
    found, real, index = [], set(quotes), 0
    while index < len(line):
        if index in closing:
            found.append(index)
            index = closing[index]
        elif line[index] in OPERATORS:
            found.append(index)
        elif line[index] not in WHITESPACE:
            before = line[index - 1] if index > 0 else WHITESPACE[0]
            if before in WHITESPACE or before in OPERATORS or index - 1 in real:
                found.append(index)
        index += 1
    if not found:
        raise Fault("Eof")
    return found, closing


def four_digits(body, index):
    """The number of four hexadecimal digits, if they stand there."""
    digits = body[index : index + 4]
    return int(digits, 16) if re.fullmatch(rb"[0-9A-Fa-f]{4}", digits) else None


def escape(body, index):
    """The character of the escape that begins at the index, and its length, or the kind of the fault."""
    letter = body[index + 1]
    if letter in ESCAPES:
        return ESCAPES[letter], 2
    if letter != ord("u"):
        raise Fault("InvalidEscape")
    number = four_digits(body, index + 2)
    if number is None:
        raise Fault("InvalidUnicodeEscape")
    if not 0xD800 <= number <= 0xDFFF:
        return chr(number), 6
    low = four_digits(body, index + 8) if body[index + 6 : index + 8] == b"\\u" else None
    if number >= 0xDC00 or low is None or not 0xDC00 <= low <= 0xDFFF:
        raise Fault("InvalidUnicodeCodepoint")
    return chr(0x10000 + (number - 0xD800) * 0x400 + (low - 0xDC00)), 12


class Reader:
    """The descent over the tokens of a line."""

    def __init__(self, line, limit):
        try:
            line.decode()
        except UnicodeDecodeError:
            raise Fault("InvalidUtf8") from None
        self.line, self.limit = line, limit
        self.places, self.closing = positions(line)
        self.next, self.last = 0, None

    def fault(self, kind, index):
        return Fault(kind, index, self.line[index])

    def peek(self):
        if self.next == len(self.places):
            raise self.fault("Syntax", self.places[-1])
        place = self.places[self.next]
        return place, self.line[place]

    def take(self):
        self.last, byte = self.peek()
        self.next += 1
        return self.last, byte

    def document(self):
        root = self.value(0, "InternalError")
        if self.next < len(self.places):
            kind = "InternalError" if isinstance(root, (list, Object)) else "TrailingData"
            raise self.fault(kind, self.last)
        return root

    def value(self, depth, unexpected):
        place, byte = self.peek()
        if byte in b"{[":
            if depth == self.limit:
                raise self.fault("Syntax", place)
            self.take()
            return self.array(depth + 1) if byte == ord("[") else self.object(depth + 1)
        if byte == QUOTE:
            return self.string()
        if byte in ATOMS:
            return self.atom(*ATOMS[byte])
        if byte == ord("-") or ord("0") <= byte <= ord("9"):
            return self.number()
        raise self.fault(unexpected, place)

    def array(self, depth):
        items = []
        if self.peek()[1] == ord("]"):
            self.take()
            return items
        items.append(self.value(depth, "ExpectedArrayContent"))
        while self.separator(b",]", "ExpectedArrayComma") == ord(","):
            items.append(self.value(depth, "InternalError"))
        return items

    def object(self, depth):
        members = []
        if self.peek()[1] == ord("}"):
            self.take()
            return Object(members)
        members.append(self.member(depth, "ExpectedObjectContent"))
        while self.separator(b",}", "ExpectedMapComma") == ord(","):
            members.append(self.member(depth, "ExpectedObjectKey"))
        return Object(members)

    def member(self, depth, unexpected):
        place, byte = self.peek()
        if byte != QUOTE:
            raise self.fault(unexpected, place)
        key = self.string()
        self.separator(b":", "ExpectedObjectColon")
        return key, self.value(depth, "InternalError")

    def separator(self, among, unexpected):
        place, byte = self.peek()
        if byte not in among:
            raise self.fault(unexpected, place)
        self.take()
        return byte

    def string(self):
        start, _ = self.take()
        body = self.line[start + 1 : self.closing[start]]
        text, index = bytearray(), 0
        while index < len(body):
            if body[index] == BACKSLASH:
                try:
                    character, length = escape(body, index)
                except Fault as fault:
                    raise self.fault(fault.kind, start + 1 + index) from None
                text += character.encode()
                index += length
            else:
                text.append(body[index])
                index += 1
        return text.decode()

    def word(self, start):
        end = start
        while end < len(self.line) and self.line[end] not in WHITESPACE + OPERATORS:
            end += 1
        return self.line[start:end]

    def atom(self, name, value, kind):
        start, _ = self.take()
        if self.word(start) != name:
            raise self.fault(kind, start)
        return value

    def number(self):
        start, _ = self.take()
        word = self.word(start)
        found = NUMBER.fullmatch(word)
        if not found:
            raise self.fault("InvalidNumber", start)
        # Python refuses to convert thousands of digits.
        if found[2] or found[3] or len(word) > len(str(2**64)) or not -(2**63) <= int(word) < 2**64:
            return Decimal(word.decode())
        return int(word)


# Documents


def keep(tree):
    """The document with the first member of each key."""
    if isinstance(tree, list):
        return [keep(item) for item in tree]
    if isinstance(tree, Object):
        first = {}
        for key, value in tree.members:
            first.setdefault(key, value)
        return Object([(key, keep(value)) for key, value in first.items()])
    return tree


def parts(tree):
    return tree if isinstance(tree, list) else [value for _, value in tree.members]


def depth(tree):
    if not isinstance(tree, (list, Object)):
        return 0
    return 1 + max((depth(part) for part in parts(tree)), default=0)


def select(tree, path):
    """The part that the path selects, in a list, or an empty list."""
    for step in path:
        if isinstance(step, str) and isinstance(tree, Object):
            place = tree.place(step)
            if place is None:
                return []
            tree = tree.members[place][1]
        elif isinstance(step, int) and isinstance(tree, list) and step < len(tree):
            tree = tree[step]
        else:
            return []
    return [tree]


def replace(tree, path, new):
    """The document with another part at the path, which selects one."""
    if not path:
        return new
    step, rest = path[0], path[1:]
    if isinstance(tree, list):
        return tree[:step] + [replace(tree[step], rest, new)] + tree[step + 1 :]
    place = tree.place(step)
    key, value = tree.members[place]
    return Object(tree.members[:place] + [(key, replace(value, rest, new))] + tree.members[place + 1 :])


def quoted(text):
    shown = (SHOWN.get(it) or (f"\\u{ord(it):04x}" if ord(it) < 0x20 else it) for it in text)
    return '"' + "".join(shown) + '"'


def compact(tree):
    if tree is None:
        return "null"
    if isinstance(tree, bool):
        return "true" if tree else "false"
    if isinstance(tree, (int, Decimal)):
        return str(tree)
    if isinstance(tree, str):
        return quoted(tree)
    if isinstance(tree, list):
        return "[" + ",".join(map(compact, tree)) + "]"
    return "{" + ",".join(f"{quoted(key)}:{compact(value)}" for key, value in tree.members) + "}"


def type_name(tree):
    names = {type(None): "null", bool: "bool", int: "integer", Decimal: "decimal", str: "string", list: "array"}
    return names.get(type(tree), "object")


# Scripts

# How many items each command has, with its name.
ITEMS = {"get": 2, "type": 2, "len": 2, "keys": 2, "pop": 2, "contains": 3, "remove": 3, "push": 3, "set": 3, "insert": 4}
ITEMS |= {"undo": 1, "reload": 1, "reload_pp": 1}
WRITES = {"insert", "remove", "push", "pop", "set"}


def is_step(tree):
    return type(tree) is str or (type(tree) is int and tree >= 0)


def is_path(tree):
    return isinstance(tree, list) and all(map(is_step, tree))


def command_fault(command):
    if not isinstance(command, list):
        return "NotAnArray"
    if not command or type(command[0]) is not str:
        return "NoName"
    name = command[0]
    if name not in ITEMS:
        return "UnknownName"
    if len(command) != ITEMS[name]:
        return "WrongCount"
    if len(command) > 1 and not is_path(command[1]):
        return "BadPath"
    if name in ("contains", "insert", "remove") and type(command[2]) is not str:
        return "BadKey"
    return None


def read_script(text):
    try:
        script = keep(Reader(text, SCRIPT_DEPTH).document())
    except Fault as fault:
        raise Refusal(f"{fault.kind} at {fault.index}") from None
    if not isinstance(script, list):
        raise Refusal("NotAnArray")
    for place, command in enumerate(script):
        fault = command_fault(command)
        if fault:
            raise Refusal(f"command {place}: {fault}")
    return script


def look(name, part, rest):
    """The reply to a command that reads a part."""
    if name == "type":
        return quoted(type_name(part))
    if name == "contains":
        return compact(isinstance(part, Object) and part.place(rest[0]) is not None)
    if name == "len":
        return str(len(parts(part))) if isinstance(part, (list, Object)) else quoted("NotAContainer")
    return compact([key for key, _ in part.members]) if isinstance(part, Object) else quoted("NotAnObject")


def write(name, part, rest, room):
    """What a write makes of a part, and the values that it replies. A new value may have `room` levels below the part."""
    if name == "set":
        if depth(rest[0]) > room:
            raise Refusal("TooDeep")
        return rest[0], [part]
    wanted, refusal = (Object, "NotAnObject") if name in ("insert", "remove") else (list, "NotAnArray")
    if not isinstance(part, wanted):
        raise Refusal(refusal)
    if name in ("insert", "push") and depth(rest[-1]) + 1 > room:
        raise Refusal("TooDeep")
    if name == "push":
        return part + [rest[0]], []
    if name == "pop":
        return part[:-1], part[-1:]
    place = part.place(rest[0])
    pair = [(rest[0], rest[1])] if name == "insert" else []
    if place is None:
        return Object(part.members + pair), []
    return Object(part.members[:place] + pair + part.members[place + 1 :]), [part.members[place][1]]


class State:
    """A document, and the documents on which the writes that are not taken back were tested."""

    def __init__(self, tree, is_lazy, limit):
        self.tree, self.is_lazy, self.limit = tree, is_lazy, limit
        self.bases = []

    def reply(self, command):
        name, arguments = command[0], command[1:]
        if name in ("reload", "reload_pp"):
            return "true"
        if name == "undo":
            has_base = bool(self.bases)
            if has_base:
                self.tree = self.bases.pop()
            return compact(has_base)
        if name in WRITES and self.is_lazy:
            self.tree = keep(self.tree)
        path, rest = arguments[0], arguments[1:]
        found = select(self.tree, path)
        if name == "get":
            return compact(found)
        if not found:
            return quoted("NoSuchPath")
        if name not in WRITES:
            return look(name, found[0], rest)
        try:
            new, old = write(name, found[0], rest, self.limit - len(path))
        except Refusal as refusal:
            return quoted(str(refusal))
        self.bases.append(self.tree)
        self.tree = replace(self.tree, path, new)
        return compact(old)


def first_repeat(tree, path=()):
    """The path to the object of the first member whose key stands earlier in it, and the key; or None."""
    if isinstance(tree, list):
        parts = enumerate(tree)
    elif isinstance(tree, Object):
        parts = tree.members
    else:
        return None
    earlier = set()
    for step, part in parts:
        if step in earlier:
            return path, step
        earlier.add(step)
        found = first_repeat(part, (*path, step))
        if found:
            return found
    return None


def record(line, script, form, limit, refuses):
    try:
        tree = Reader(line, limit).document()
    except Fault as fault:
        character = "null" if fault.byte is None else quoted(chr(fault.byte))
        return f'{{"error":"{fault.kind}","index":{fault.index},"character":{character}}}'
    repeat = first_repeat(tree) if refuses else None
    if repeat:
        path, key = repeat
        return f'{{"error":"RepeatedKey","path":{compact([*path])},"key":{quoted(key)}}}'
    is_lazy = form == "lazy"
    state = State(tree if is_lazy else keep(tree), is_lazy, limit)
    replies = ",".join(state.reply(command) for command in script)
    return f'{{"replies":[{replies}],"document":{compact(state.tree)}}}'


def main():
    parser = argparse.ArgumentParser()
    parser.add_argument("--form", choices=["owned", "borrowed", "lazy"], default="owned")
    parser.add_argument("--depth", type=int, default=1024)
    parser.add_argument("--repeats", choices=["keep", "refuse"], default="keep")
    parser.add_argument("script")
    arguments = parser.parse_args()
    sys.setrecursionlimit(100_000)
    with open(arguments.script, "rb") as file:
        try:
            script = read_script(file.read())
        except Refusal as refusal:
            print(f"records: script: {refusal}", file=sys.stderr)
            return 2
    lines = sys.stdin.buffer.read().split(b"\n")
    if not lines[-1]:
        lines.pop()
    refuses = arguments.repeats == "refuse"
    for line in lines:
        sys.stdout.buffer.write(record(line, script, arguments.form, arguments.depth, refuses).encode() + b"\n")
    return 0


if __name__ == "__main__":
    sys.exit(main())
