#!/usr/bin/env python3
"""The cases of crates/bt_plan_cases: writes its stdin, and its stdout by a model of its own.

The model is written from the table of outputs (docs/ and README), not from the program: a tree of each output is built,
numbered as it stands, and asked of each message. It knows the few checks and texts that the cases use.

    python3 tests/plan_cases.py            writes crates/bt_plan_cases/stdin and stdout
"""
import json
import os

HERE = os.path.join(os.path.dirname(os.path.abspath(__file__)), "..", "crates", "bt_plan_cases")

CHECKS = {
    "this.n > 0": lambda v: v["n"] > 0,
    "this.n > 1": lambda v: v["n"] > 1,
    "this.n > 2": lambda v: v["n"] > 2,
    "this.e == true": lambda v: v["e"] is True,
}
UNITS = {"ms": 1, "s": 1000, "m": 60000, "h": 3600000}


def passes(check, text):
    try:
        return CHECKS[check](json.loads(text))
    except (ValueError, KeyError, TypeError):
        return False


def period(text):
    digits = text.rstrip("msh")
    return int(digits) * UNITS[text[len(digits):]] if text else 0


def end(fields):
    codec = fields.get("codec", "lines")
    return "\n" if codec == "lines" else codec[len("delim:"):]


class Plan:
    """Leaves, sinks and holds, numbered as they stand."""

    def __init__(self):
        self.leaves, self.sinks, self.ends, self.holds = 0, [], [], []

    def leaf(self, name, closing):
        if name not in self.sinks:
            self.sinks.append(name)
            self.ends.append(closing)
        n, self.leaves = self.leaves, self.leaves + 1
        return ("leaf", n, self.sinks.index(name))

    def build(self, output):
        kind = next(k for k in output if k != "label")
        f = output[kind]
        if kind == "stdout":
            return self.leaf("stdout", end(f))
        if kind == "file":
            return self.leaf("file:" + f["path"], end(f))
        if kind == "broker":
            b = f.get("batching", {})
            policy = (b.get("count", 0), b.get("byte_size", 0), period(b.get("period", "")))
            if policy == (0, 0, 0) and not b.get("check", ""):
                return ("all", [self.build(o) for o in f["outputs"]])
            node = len(self.holds)
            self.holds.append(policy)
            return ("hold", node, b.get("check", ""), ("all", [self.build(o) for o in f["outputs"]]))
        if kind == "switch":
            cases = [(c.get("check", ""), c.get("continue", False), self.build(c["output"])) for c in f["cases"]]
            return ("switch", cases, f.get("strict_mode", False))
        if kind == "fallback":
            return ("first", [self.build(o) for o in f])
        if kind == "drop":
            return ("drop",)
        if kind == "reject":
            return ("reject", f)
        if kind == "reject_errored":
            return ("errored", self.build(f))
        if kind == "retry":
            return ("first", [self.build(f["output"]) for _ in range(f["max_retries"] + 1)])
        if kind == "drop_on":
            child = self.build(f["output"])
            return ("first", [child, ("drop",)]) if f["error"] else child
        raise ValueError(kind)


def asked(o, text, flag):
    """What an output asks of a message, as the program prints it."""
    if o[0] == "leaf":
        return f" leaf {o[1]} to {o[2]}: {text};"
    if o[0] == "drop":
        return " drop;"
    if o[0] == "reject":
        return f" reject {o[1].replace('${! this.k }', str(json.loads(text).get('k')) if '${' in o[1] else '')};"
    if o[0] == "errored":
        return f" reject {flag};" if flag else asked(o[1], text, flag)
    if o[0] == "all":
        return " all (" + "".join(asked(c, text, flag) for c in o[1]) + " )"
    if o[0] == "first":
        return " first (" + "".join(asked(c, text, flag) for c in o[1]) + " )"
    if o[0] == "hold":
        ends = "true" if o[2] and passes(o[2], text) else "false"
        return f" hold {o[1]}, ends {ends}, size {len(text)} (" + asked(o[3], text, flag) + " )"
    some = []
    for check, goes_on, child in o[1]:
        if not check or passes(check, text):
            some.append(asked(child, text, flag))
            if not goes_on:
                break
    if some:
        return " all (" + "".join(some) + " )"
    return " reject switch: no case matched;" if o[2] else " drop;"


def printed(text):
    return "LF" if text == "\n" else text


def policy_of(p):
    return f" {p.get('count', 0)} {p.get('byte_size', 0)}" + (" check" if p.get("check") else "")


def input_of(i, policy=None):
    kind = next(k for k in i if k != "label")
    f = i[kind]
    if kind in ("stdin", "file"):
        names = "".join(" " + p for p in f.get("paths", []))
        scanner = f.get("scanner", {"lines": {}})
        if "csv" in scanner:
            s = scanner["csv"]
            header = "true" if s.get("parse_header_row", True) else "false"
            plain = f" (csv{names} {ord(s.get('custom_delimiter', ','))} {header})"
            return plain if policy is None else f" (regroup{policy_of(policy)}{plain})"
        d = end({"codec": f["codec"]}) if "codec" in f else scanner["lines"].get("custom_delimiter", "\n")
        return f" ({kind}{names} {printed(d)}{policy_of(policy or {})})"
    if kind == "batched":
        return input_of(f["child"], f.get("policy", {}))
    if kind == "sequence":
        inner = " (sequence" + "".join(input_of(c) for c in f["inputs"]) + ")"
    else:
        inner = " (until" + input_of(f["input"]) + ")"
    return inner if policy is None else f" (regroup{policy_of(policy)}{inner})"


def expected(config, parts):
    """The printed plan; `parts` has the messages as (origin, content, flag)."""
    plan = Plan()
    tree = plan.build(config.get("output", {"stdout": {}}))
    pipeline = config.get("pipeline", {})
    lines = [
        "  sinks" + "".join(" " + s for s in plan.sinks) + "; ends" + "".join(" " + printed(e) for e in plan.ends),
        f"  threads {pipeline.get('threads', 1)}; window {pipeline.get('window', 1024)}; holds"
        + "".join(f" ({a} {b} {c})" for a, b, c in plan.holds),
        "  input" + input_of(config.get("input", {"stdin": {}})),
    ]
    return lines + [f"  from {n}:{asked(tree, text, flag)}" for n, text, flag in parts]


def file(path, codec=None):
    return {"file": {"path": path, **({"codec": codec} if codec else {})}}


def broker(outputs, **batching):
    return {"broker": {"pattern": "fan_out_fail_fast", "outputs": outputs, **({"batching": batching} if batching else {})}}


def case(output, check="", goes_on=False):
    return {"output": output, **({"check": check} if check else {}), **({"continue": True} if goes_on else {})}


def switch(*cases, strict=False):
    return {"switch": {"cases": list(cases), **({"strict_mode": True} if strict else {})}}


def retry(n, output):
    return {"retry": {"max_retries": n, "output": output}}


def drop_on(error, output):
    return {"drop_on": {"error": error, "output": output}}


def mapping(text):
    return {"processors": [{"mapping": text}]}


CASES = []


def add(name, config, items, parts=None, lints=None):
    if parts is None:
        parts = [(i, t, None) for i, t in enumerate(items)]
    out = ["  " + l for l in lints] if lints is not None else expected(config, parts)
    CASES.append((name, json.dumps(config, separators=(",", ":")), "&".join(items), out))


def named():
    one, two, three = '{"n":1}', '{"n":2}', '{"n":3}'
    add("defaults", {}, ["a"])
    add("drop-even", {"pipeline": mapping("root = if this.n % 2 == 0 { deleted() }")}, [one, two, three, '{"n":4}'],
        [(0, one, None), (2, three, None)])
    add("one-item-refused", {"pipeline": mapping("root.n = this.n.number()"), "output": {"reject_errored": {"stdout": {}}}},
        ['{"n":"1"}', '{"n":"x"}', '{"n":"3"}'],
        [(0, one, None), (1, '{"n":"x"}', "failed assignment (line 1): number: bad text"), (2, three, None)])
    add("fallback-of-fan-out", {"output": {"fallback": [broker([file("a"), file("b")]), file("c")]}}, ["r1", "r2", "r3"])
    both = [case(file("a"), "this.n > 1", True), case(file("b"), "this.n > 2")]
    add("switch-continue", {"output": switch(*both)}, [one, two, three])
    add("switch-strict", {"output": switch(*both, strict=True)}, [one, three])
    add("two-leaves-one-sink", {"output": broker([file("a"), file("a")])}, ["r"])
    add("reject-text", {"output": {"reject": "no ${! this.k }"}}, ['{"k":"v"}'])
    add("reject-then-drop", {"output": {"fallback": [{"reject": "x"}, {"drop": {}}]}}, ["r"])
    add("retry-two", {"output": retry(2, file("a"))}, ["r1", "r2"])
    add("drop-on-error", {"output": drop_on(True, file("a"))}, ["r1", "r2"])
    add("drop-on-nothing", {"output": drop_on(False, file("a"))}, ["r1"])
    add("switch-first", {"output": switch(case(file("a"), "this.n > 1"), case(file("b"), "this.n > 0"))}, [two, one])
    add("sinks-by-first-leaf", {"output": broker([file("z"), {"stdout": {}}, file("a"), file("z")])}, ["r"])
    add("closing-bytes", {"version": 2, "output": broker([file("z", "delim:;"), {"stdout": {}}, file("a", "delim:ab")])}, ["r"])
    add("numbers", {"version": 2, "pipeline": {"threads": 4, "window": 2048, "processors": []}}, ["r"])
    add("holds-with-all", {"output": broker([broker([file("a")]), switch(case(broker([file("b")]), "this.n > 1"), case({"drop": {}}))],
                                            count=3, byte_size=100, period="2m", check="this.n > 2")}, [one, two, three])
    add("batching-off", {"output": broker([file("a")], count=0, period="0s", check="")}, ["r"])
    add("holds-of-retry", {"output": broker([retry(1, broker([file("a")], count=5)), broker([file("b")], period="90s")])}, ["r"])


def inputs():
    add("two-files", {"input": {"file": {"paths": ["a", "b"]}}}, ["r"])
    add("batched-lines", {"input": {"batched": {"child": {"stdin": {}}, "policy": {"count": 3, "check": "this.n > 1"}}}}, ["r"])
    add("delimiters", {"version": 2, "input": {"sequence": {"inputs": [
        {"stdin": {"scanner": {"lines": {"custom_delimiter": "aa"}}}}, {"file": {"paths": ["p"], "codec": "delim:;"}},
        {"stdin": {"codec": "lines"}}]}}}, ["r"])
    add("csv", {"version": 2, "input": {"sequence": {"inputs": [
        {"file": {"paths": ["p", "q"], "scanner": {"csv": {}}}},
        {"stdin": {"scanner": {"csv": {"custom_delimiter": ";", "parse_header_row": False}}}}]}}}, ["r"])
    add("until-in-a-sequence", {"version": 2, "input": {"sequence": {"inputs": [
        {"read_until": {"check": "this.e == true", "input": {"batched": {"child": {"stdin": {}}, "policy": {"count": 2}}}}},
        {"file": {"paths": ["p"]}}]}}}, ["r"])
    add("regroup", {"version": 2, "input": {"batched": {"policy": {"byte_size": 10}, "child": {"sequence": {"inputs": [
        {"stdin": {}}, {"stdin": {"scanner": {"csv": {}}}}]}}}}}, ["r"])
    add("regrouped-csv", {"version": 2, "input": {"batched": {"policy": {"count": 2}, "child": {"stdin": {"scanner": {"csv": {}}}}}}}, ["r"])


def lints():
    add("two-kinds", {"output": {"drop": {}, "stdout": {}}, "x": 1}, ["r"],
        lints=["/output: not exactly one kind", "/x: unknown field"])
    add("batching-below-batching", {"output": broker([broker([file("a")], count=2)], count=2)}, ["r"],
        lints=["/output/broker/outputs/0/broker: batching below batching"])
    add("too-many-leaves", {"output": retry(8, retry(8, broker([file("a")] * 4)))}, ["r"], lints=["/output: too many"])
    add("too-many-holds", {"output": retry(8, retry(7, broker([file("a")], count=2)))}, ["r"], lints=["/output: too many"])
    add("pattern-refused", {"pipeline": mapping('root = this.re_match("(")'),
                            "output": {"reject": "${! this.a.re_match(\"[\") }"}}, ["r"],
        lints=["/output/reject: pattern at line 1 column 18"])


def rows():
    """Each row of the table alone, and one below each other."""
    leaf = {
        "stdout": lambda o: {"stdout": {}},
        "file": lambda o: file("f"),
        "drop": lambda o: {"drop": {}},
        "reject": lambda o: {"reject": "no"},
    }
    inner = {
        "broker": lambda o: broker([file("x"), o]),
        "hold": lambda o: broker([o, file("y")], count=2, check="this.n > 1"),
        "switch": lambda o: switch(case(o, "this.n > 1", True), case(file("x"), "this.n > 2"), case(o, "this.n > 2")),
        "strict": lambda o: switch(case(o, "this.n > 1"), strict=True),
        "fallback": lambda o: {"fallback": [o, file("x"), o]},
        "reject_errored": lambda o: {"reject_errored": o},
        "retry": lambda o: retry(2, o),
        "drop_on": lambda o: drop_on(True, o),
        "drop_on_not": lambda o: drop_on(False, o),
    }
    items = ['{"n":1}', '{"n":2}', '{"n":3}']
    for name, make in leaf.items():
        add(name, {"output": make(None)}, items)
    for name, make in inner.items():
        add(name, {"output": make(file("z"))}, items)
        for other, below in {**leaf, **inner}.items():
            if (name, other) == ("hold", "hold"):
                continue
            add(f"{other}-below-{name}", {"output": make(below(file("z")))}, items)


def main():
    named()
    inputs()
    lints()
    rows()
    with open(os.path.join(HERE, "stdin"), "w") as f:
        f.writelines(f"{n}\t{c}\t{i}\n" for n, c, i, _ in CASES)
    with open(os.path.join(HERE, "stdout"), "w") as f:
        for n, _, _, out in CASES:
            f.write("\n".join([n] + out) + "\n")


if __name__ == "__main__":
    main()
