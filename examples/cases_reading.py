"""Reads files of cases (examples/CASES.md), for runners: what is wrong with one is told by a sentence (BadFile). And brings a
machine into the state of a case, by calls that the sides of examples/lockstep have (lockstep_sides.py)."""
import gzip
import json
import os
import re
import zlib

FORMAT, VERSION = "p11-cases", 1
HEAD = {"format": str, "version": int, "program": str, "seed": int, "memory": int, "rules": dict}
FIELDS = {"name": str, "kind": str, "turns": int, "initial": dict, "final": dict, "traps": list, "own": list}
STATE = {"r": list, "ksp": int, "usp": int, "pc": int, "ps": int, "ram": list}
DEVICES = {"initial": {"clock": int, "keys": list, "switches": int, "packs": list}, "final": {"typed": list, "packs": list}}
PACK = {"drive": int, "protected": bool, "sectors": list}
KINDS = ("instruction", "sequence", "devices")
PAGES = {"kpdr": 0o772300, "kpar": 0o772340, "updr": 0o777600, "upar": 0o777640}
REGISTERS = {"slr": 0o777774, "sr0": 0o777572, "sr2": 0o777576}
USUAL = {"slr": 0, "sr0": 0, "sr2": 0, "run": "ready", **{name: [0] * 8 for name in PAGES}}
WRITTEN, SECTOR_BYTES, SECTORS = 0o100, 512, 4872


class BadFile(Exception):
    """A file that isn't a file of cases, or a case that lacks something."""


def judge(found, fields, what):
    """Whether an object has the fields that it needs, each of its type."""
    if not isinstance(found, dict):
        raise BadFile(f"{what} is no object of JSON")
    for name, kind in fields.items():
        if name not in found:
            raise BadFile(f"{what} has no field `{name}`")
        if type(found[name]) is not kind:
            raise BadFile(f"{what}: `{name}` is to be of type {kind.__name__}, and is {json.dumps(found[name])[:40]}")


def object_of(line, number):
    try:
        return json.loads(line)
    except (ValueError, RecursionError):
        raise BadFile(f"line {number} isn't JSON: {line[:40].rstrip().decode('latin-1')}") from None


def judge_case(case, number):
    what = f"line {number}: the case"
    judge(case, FIELDS, what)
    judge(case["initial"], STATE, f"line {number}: `initial`")
    if case["kind"] not in KINDS:
        raise BadFile(f"{what} is of a kind that this runner doesn't know: {case['kind'][:40]}")
    if case["kind"] == "devices":
        for side in ("initial", "final"):
            judge(case[side], {"devices": dict}, f"line {number}: `{side}`")
            judge_devices(case[side]["devices"], DEVICES[side], f"line {number}: `devices` of `{side}`")
    for side in ("initial", "final"):
        judge_words(case[side], f"line {number}: `{side}`")
    if case["turns"] < 1 or not all(isinstance(name, str) for name in case["own"]):
        raise BadFile(f"{what} has no turn, or a rule without a name")
    strange = set(words_of(case["final"])) - set(words_of(case["initial"]))
    if strange:
        raise BadFile(f"{what}: `ram` of `final` has the word {min(strange):06o}, and that of `initial` hasn't")


def judge_devices(devices, fields, what):
    judge(devices, fields, what)
    for pack in devices["packs"]:
        judge(pack, PACK, f"{what}: a pack")
        for sector in pack["sectors"]:
            if not (isinstance(sector, list) and len(sector) == 2 and type(sector[0]) is int and 0 <= sector[0] < SECTORS
                    and isinstance(sector[1], str) and re.fullmatch(r"[0-9a-f]{1024}", sector[1])):
                raise BadFile(f"{what}: a sector isn't a number below {SECTORS} and 1,024 hexadecimal digits")


def judge_words(state, what):
    """Whether what are words are words, as many as there are registers."""
    for name, count in {"r": 6, **{name: 8 for name in PAGES}}.items():
        if name in state and not (isinstance(state[name], list) and len(state[name]) == count):
            raise BadFile(f"{what}: `{name}` isn't a list of {count} words")
    runs = state.get("ram", [])
    for run in runs if isinstance(runs, list) else [None]:
        if not (isinstance(run, list) and run and type(run[0]) is int and run[0] % 2 == 0 and 0 <= run[0] <= 0o757776):
            raise BadFile(f"{what}: a run of `ram` doesn't begin with an even address of memory")
    words = [state[name] for name in ("ksp", "usp", "pc", "ps", *REGISTERS) if name in state]
    words += [word for name in ("r", *PAGES) for word in state.get(name, [])] + [word for run in runs for word in run[1:]]
    for word in words:
        if type(word) is not int or not 0 <= word < 65536:
            raise BadFile(f"{what}: {json.dumps(word)[:40]} is no word of 16 bits")


def read(path):
    """The head of a file, and an iterator over its cases. A name that ends in .gz is unpacked."""
    try:
        file = gzip.open(path, "rb") if path.endswith(".gz") else open(path, "rb")
        first = file.readline()
    except (OSError, EOFError, zlib.error) as cause:
        raise BadFile(f"{path} can't be read: {cause}") from None
    head = object_of(first, 1)
    if not isinstance(head, dict) or head.get("format") != FORMAT:
        raise BadFile(f"{path} is no file of cases: its first line doesn't say {FORMAT}")
    if head.get("version") != VERSION:
        raise BadFile(f"{path} has version {json.dumps(head.get('version'))} of the format, and this runner reads {VERSION}")
    judge(head, HEAD, "line 1: the head")
    return head, cases_in(file, path)


def cases_in(file, path):
    number = 1
    try:
        with file:
            for line in file:
                number += 1
                case = object_of(line, number)
                judge_case(case, number)
                yield case
    except (OSError, EOFError, zlib.error) as cause:
        raise BadFile(f"{path} can't be read behind line {number}: {cause}") from None


class Choice:
    """Which of the project's own rules are left out: their cases, or the fields that they decide."""

    def __init__(self, head, skipped, kept):
        rules = head["rules"]
        for name in [*skipped, *kept]:
            if name != "own" and name not in rules:
                raise BadFile(f"the file has no rule {name}; its rules are {' '.join(rules)}")
        names = set(rules) if "own" in skipped else set(skipped)
        self.names = names - set(kept)
        self.fields = {name: rules[name].get("fields", []) for name in self.names}

    def skips(self, case):
        return any(name in self.names and not self.fields[name] for name in case["own"])

    def unseen(self, case):
        """The fields that aren't compared: names of a state, and w for the written bits of pages."""
        return {field for name in case["own"] if name in self.names for field in self.fields[name]}


def before(case):
    """The whole state before a case's turns."""
    return {**USUAL, **case["initial"]}


def begin(side, case, kwords, folder):
    """A new machine in the state before a case, whose packs are written as files of a folder."""
    state = before(case)
    side.new(kwords)
    if case["kind"] == "devices":
        devices = case["initial"]["devices"]
        packs = [(pack["drive"], pack["protected"], image_file(pack, folder)) for pack in devices["packs"]]
        side.devices(devices["switches"], devices["clock"], devices["keys"], packs)
    for run in state["ram"]:
        side.put(run[0], run[1:])
    for name, place in PAGES.items():
        if name in case["initial"]:
            for at, word in enumerate(state[name]):
                side.put(place + 2 * at, [word])
    if state["slr"]:
        side.put(REGISTERS["slr"], [state["slr"]])
    side.regs([*state["r"], state["ksp"], state["usp"], state["pc"], state["ps"]])
    if state["sr0"]:
        side.put(REGISTERS["sr0"], [state["sr0"]])


def image_of(pack):
    """The bytes of a pack, up to its last sector that is told."""
    image = b""
    for number, held in sorted(pack["sectors"]):
        image = image.ljust(number * SECTOR_BYTES, b"\0") + bytes.fromhex(held)
    return image


def image_file(pack, folder):
    """A file with a pack's bytes."""
    name = os.path.join(folder, f"pack{pack['drive']}")
    with open(name, "wb") as file:
        file.write(image_of(pack))
    return name


def words_of(state):
    """The words of memory that a state names, by their addresses."""
    return {run[0] + 2 * at: word for run in state.get("ram", []) for at, word in enumerate(run[1:])}


def after(case):
    """The whole state after a case's turns, with the words of memory that the case names by their addresses."""
    return {**before(case), **case["final"], "ram": {**words_of(case["initial"]), **words_of(case["final"])}}


def differences(wanted, found, unseen):
    """The fields of two states that differ, each with both words. What `found` lacks isn't compared."""
    for name, word in wanted.items():
        if name in unseen or name not in found or name == "devices":
            continue
        if name == "ram":
            yield from ((f"{address:06o}", one, found[name][address]) for address, one in word.items()
                        if one != found[name][address])
        elif isinstance(word, list):
            mask = 0o177777 - WRITTEN if "w" in unseen and name in ("kpdr", "updr") else 0o177777
            yield from ((f"{name}{at}", one, other) for at, (one, other) in enumerate(zip(word, found[name]))
                        if one & mask != other & mask)
        elif word != found[name]:
            yield name, word, found[name]
