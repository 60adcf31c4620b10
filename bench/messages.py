"""Messages of a shape, a line each: messages.py SHAPE COUNT."""
import json
import random
import sys

WORDS = """disk full on node request took too long retry connection reset by peer cache miss user login ok queue depth
high timeout while reading from upstream shard rebalanced commit offset flush wal""".split()
LEVELS = ["debug", "info", "warn", "error"]
MEMBERS = 100_000


def words(length):
    text = ""
    while len(text) < length:
        text += random.choice(WORDS) + " "
    return text[:length]


def small(i):
    return {"id": i, "level": random.choice(LEVELS), "ms": random.randrange(5000), "svc": f"svc{random.randrange(10)}",
            "msg": words(118)}


def middle(i):
    return {"ts": f"2026-12-01T05:03:{i % 60:02}.{i % 1000:03}Z", "level": random.choice(LEVELS),
            "service": {"name": f"svc{random.randrange(10)}", "version": f"1.{i % 9}.{i % 7}",
                        "node": f"node-{random.randrange(200):03}"},
            "request": {"method": "GET", "path": f"/api/v1/users/{random.randrange(99999)}/orders",
                        "status": random.choice([200, 200, 404, 500]), "ms": random.randrange(3000)},
            "tags": [random.choice(WORDS) for _ in range(4)], "user": random.randrange(10**9),
            "ok": random.random() < .5, "trace": f"{random.getrandbits(128):032x}"}


def large(i):
    message = middle(i)
    message["headers"] = {"h-" + word: words(random.randrange(5, 25)) for word in random.sample(WORDS, 10)}
    message["points"] = [{"x": random.randrange(1000), "y": random.randrange(-1000, 1000)} for _ in range(8)]
    message["text"] = words(200) + "\n\"quoted\" "
    message["level"] = message.pop("level")
    return message


def fraction(i):
    return small(i) | {"load": random.randrange(100) / 8 + 0.0625}


def wide(order):
    def message(_):
        keys = [f"key{i:06}" for i in range(MEMBERS)]
        if order == "falling":
            keys.reverse()
        elif order == "mixed":
            random.shuffle(keys)
        return {"level": "x"} | {key: i for i, key in enumerate(keys)}
    return message


SHAPES = {"small": small, "middle": middle, "large": large, "fraction": fraction, "rising": wide("rising"),
          "falling": wide("falling"), "mixed": wide("mixed")}

random.seed(7)
for i in range(int(sys.argv[2])):
    print(json.dumps(SHAPES[sys.argv[1]](i), separators=(",", ":")))
