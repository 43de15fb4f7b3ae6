#!/usr/bin/env python3
"""Random lines and a random script for `records`.

    oracle/lines.py SEED LINES FOLDER

It writes FOLDER/lines.jsonl, FOLDER/script.json, and FOLDER/arguments with a form, a depth and, for half of the seeds, a rule for
repeated keys. About half of the lines are documents. The others are documents with a few bytes changed, so that every fault but
`InputTooLarge` comes up. A sixth of the scripts has a fault, too.
"""

import json
import pathlib
import random
import sys

KEYS = ["a", "b", "", "k", "é", "Aa", "BB"]
CHARACTERS = list('ab"\\/\b\f\n\r\téz 😀{[,:') + list("\x00\x1f\x7f\x80\u07ff\u0800\ud7ff\ue000\ufeff\uffff\U0010ffff")
INTEGERS = ["0", "-0", "1", "-1", "12345678", "123456789", "1234567890123456", "18446744073709551615", "-9223372036854775808"]
DECIMALS = ["1.5", "1.50", "-0.0", "1e5", "1E+5", "2e-10", "0.1e1", "1234567890123456789012345678901234567890.5e10"]
DECIMALS += ["18446744073709551616", "-9223372036854775809", "-18446744073709551615", "10000000000000000000000000"]
WRONG = ["018446744073709551616", "01", "-", "1.", "1.e5", ".5", "1e", "+1", "-01", "1.5.5", "12a", "0x1"]
FRAGMENTS = [b"{", b"}", b"[", b"]", b":", b",", b'"', b"\\", b"\\u12", b"\\ud800", b"\\udc00", b"\\q", b"true", b"tru", b"nul"]
FRAGMENTS += [b"\xff", b"\xc3", b"\xe2\x82", b"\xed\xa0\x80", b"\xf4\x90\x80\x80", b"\x01", b"\x0c", b"0", b"-", b"e", b".", b" ", b"\r"]
PATH_ALONE = ["get", "type", "len", "keys", "pop"]
BARE = ["undo", "undo", "reload", "reload_pp"]
REFUSED = ["{}", "7", "[]", "[7]", "[[]]", '["frob"]', '["Get",[]]', '["get"]', '["undo",[]]', '["pop",[],1]', '["get",7]', '["len",[-1]]']
REFUSED += ['["type",[1.5]]', '["keys",[[]]]', '["get",{}]', '["insert",[],1,2]', '["remove",[],null]', '["contains",[true],1]', '["len",[18446744073709551616]]']


class Lines:
    def __init__(self, seed):
        self.random = random.Random(seed)
        self.choice, self.chance = self.random.choice, lambda share: self.random.random() < share

    def space(self):
        return self.choice(["", "", "", "", " ", "\t", "\r", "  "])

    def text(self):
        return "".join(self.choice(CHARACTERS) for _ in range(self.choice([0, 1, 2, 3, 8, 40, 70])))

    def escaped(self, character):
        """The character in one of its spellings."""
        units = character.encode("utf-16-be").hex()
        spelled = "".join("\\u" + units[i : i + 4] for i in range(0, len(units), 4))
        if character == "/" and self.chance(0.3):
            return "\\/"
        if self.chance(0.1):
            return "".join(self.choice([it, it.upper()]) if it != "u" else it for it in spelled)
        return json.dumps(character, ensure_ascii=False)[1:-1]

    def string(self, text):
        return '"' + "".join(map(self.escaped, text)) + '"'

    def scalar(self):
        kind = self.random.randrange(7)
        if kind == 0:
            return self.choice(["null", "true", "false"])
        if kind == 1:
            return str(self.random.randrange(-(2**63), 2**64))
        if kind <= 3:
            return self.choice(WRONG) if self.chance(0.01) else self.choice(INTEGERS + DECIMALS)
        return self.string(self.text())

    def member(self, depth):
        key = self.choice(KEYS) if self.chance(0.8) else self.text()
        return self.string(key) + self.space() + ":" + self.space() + self.document(depth)

    def document(self, depth):
        if depth == 0 or self.chance(0.45):
            return self.scalar()
        count = self.choice([0, 0, 1, 1, 2, 3, 5])
        if self.chance(0.5):
            return "[" + self.space() + ",".join(self.document(depth - 1) + self.space() for _ in range(count)) + "]"
        return "{" + self.space() + ",".join(self.space() + self.member(depth - 1) for _ in range(count)) + "}"

    def changed(self, line):
        """The line with bytes taken out, put in or replaced, or cut short."""
        line = bytearray(line)
        for _ in range(self.choice([1, 1, 1, 2, 3])):
            start = self.random.randrange(len(line) + 1)
            end = self.choice([start, start + 1, start + 1, len(line)])
            line[start:end] = b"" if self.chance(0.4) else self.choice(FRAGMENTS)
        return bytes(line)

    def nested(self):
        count = self.random.randrange(1, 8)
        return self.choice([b"[" * count + b"]" * count, b'{"a":' * count + b"1" + b"}" * count])

    def many_members(self):
        count = self.choice([32, 33, 34, 40, 48, 49, 50, 300, 1025])
        keys = self.choice([count, count, count - 1, 30])
        # Keys of these blocks have one hash.
        blocks = lambda number: "".join(["Aa", "BB"][number >> place & 1] for place in range(11))
        key = blocks if self.chance(0.3) else "k{}".format
        return ("{" + ",".join(f'"{key(i % keys)}":{i}' for i in range(count)) + "}").encode()

    def long(self):
        """A line that comes in several pieces, or that nests up to a level too deep."""
        if self.chance(0.5):
            count = self.choice([1023, 1024, 1025])
            return b"[" * count + b"]" * count
        return ("[" + ",".join(self.document(3) for _ in range(self.choice([500, 3000]))) + "]").encode()

    def line(self):
        kind = self.random.random()
        if kind < 0.001:
            return self.long()
        if kind < 0.02:
            return self.choice([b"", b" ", b"\r", b"\t \r", b"\x0c"])
        if kind < 0.05:
            return self.nested()
        if kind < 0.06:
            return self.many_members()
        line = b" " * self.choice([0, 0, 0, 1, 61, 62, 63, 64, 65, 130]) + self.document(self.random.randrange(5)).encode()
        return self.changed(line) if self.chance(0.45) else line

    def key(self):
        return self.choice(["k1", "k29", "k200"]) if self.chance(0.1) else self.choice(KEYS[: self.choice([4, len(KEYS)])])

    def path(self):
        steps = self.choice([0, 0, 1, 1, 2, 3])
        return json.dumps([self.key() if self.chance(0.6) else self.random.randrange(3) for _ in range(steps)])

    def command(self):
        name = self.choice(PATH_ALONE + BARE + ["contains", "insert", "insert", "remove", "push", "push", "set", "set"])
        items = [json.dumps(name)]
        if name not in BARE:
            items.append(self.path())
        if name in ("contains", "insert", "remove"):
            items.append(json.dumps(self.key()))
        if name in ("insert", "push", "set"):
            items.append(self.document(2))
        return "[" + ",".join(items) + "]"

    def script(self):
        if self.chance(0.03):
            return self.choice([b"{}", b"7", b'"get"', b" ", b"[]"])
        commands = [self.command() for _ in range(self.random.randrange(1, 9))]
        if self.chance(0.1):
            commands[-1] = self.choice(REFUSED)
        script = ("[" + ",".join(commands) + "]").encode()
        return self.changed(script) if self.chance(0.08) else script


def main():
    seed, count, folder = int(sys.argv[1]), int(sys.argv[2]), pathlib.Path(sys.argv[3])
    lines = Lines(seed)
    (folder / "script.json").write_bytes(lines.script())
    form, depth = lines.choice(["owned", "borrowed", "lazy"]), lines.choice([0, 1, 2, 3, 5, 1024])
    rule = lines.choice(["", "", " --repeats keep", " --repeats refuse"])
    (folder / "arguments").write_text(f"--form {form} --depth {depth}{rule}\n")
    with open(folder / "lines.jsonl", "wb") as file:
        for number in range(count):
            ending = b"" if number + 1 == count and lines.chance(0.5) else b"\n"
            file.write(lines.line() + ending)


if __name__ == "__main__":
    main()
