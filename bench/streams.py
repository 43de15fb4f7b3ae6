#!/usr/bin/env python3
"""Makes the two streams of bench/run.sh and bench/read.sh that aren't files of simdjson's repository.

    bench/streams.py FOLDER

writes into FOLDER, which has to hold twitter.json:

- tweets.jsonl: the tweets of twitter.json, one a line, each once in order, and then drawn again, 470 in all.
- logs.jsonl: 11,357 made-up lines of a log, of some 194 bytes.

Both are the same each time. What is drawn differs from the streams of bench/README.md; the kind and the size of lines don't.
"""
import datetime
import json
import pathlib
import random
import string
import sys

TWEETS, LOGS = 470, 11357


def compact(value):
    return json.dumps(value, ensure_ascii=False, separators=(",", ":")) + "\n"


def tweets(statuses, draw):
    drawn = statuses + draw.choices(statuses, k=TWEETS - len(statuses))
    return "".join(map(compact, drawn))


def word(draw, least, most):
    return "".join(draw.choices(string.ascii_lowercase, k=draw.randint(least, most)))


def log_line(seq, draw):
    begin = datetime.datetime(2024, 6, 1)
    time = begin + datetime.timedelta(milliseconds=draw.randrange(30 * 24 * 60 * 60 * 1000))
    return {
        "time": time.isoformat(timespec="milliseconds") + "Z",
        "level": draw.choice(["debug", "info", "warn", "error"]),
        "seq": seq,
        "user": {"id": draw.randint(1, 10**9 - 1), "screen_name": word(draw, 5, 12)},
        "path": f"/{word(draw, 3, 8)}/{word(draw, 5, 12)}",
        "status": draw.choice([200, 204, 301, 404, 500]),
        "ms": draw.randint(1, 90000) / 1000,
        "ok": draw.random() < 0.9,
        "note": f"{word(draw, 2, 9)} {word(draw, 2, 9)}",
    }


def main():
    folder = pathlib.Path(sys.argv[1])
    draw = random.Random(1)
    statuses = json.loads((folder / "twitter.json").read_text("utf-8"))["statuses"]
    (folder / "tweets.jsonl").write_text(tweets(statuses, draw), "utf-8")
    logs = "".join(compact(log_line(seq, draw)) for seq in range(1, LOGS + 1))
    (folder / "logs.jsonl").write_text(logs, "utf-8")


if __name__ == "__main__":
    if len(sys.argv) != 2:
        sys.exit("usage: bench/streams.py FOLDER")
    main()
