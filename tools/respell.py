#!/usr/bin/env python3
"""respell.py [--list]: spells the repository's own definitions and lemmas in one way, once, behind the kit's port.py: words in snake case, types in camel case,
a prime as an apostrophe. --list prints the names and writes nothing. Functions of src/, exported names, strings, inputs and outputs keep their names; in a
comment a name changes only between back quotes. Names that would fall together in one file are told apart by CHOSEN, or by `_lem` where one is a lemma."""
import collections
import os
import re
import sys

ROOT = os.path.join(os.path.dirname(os.path.abspath(__file__)), "..", "crates")
NAME = r"[^\s(){}.;,@\"«»`]+"
DECLARED = re.compile(rf"(?m)^( *)(?:(?:pattern|unfoldable|abbrev|pub|axiom) )*({NAME})(?: \{{[^{{}}\n]*\}})* :(?= |\n)")
# What a file takes from the kit keeps its name there.
TAKEN = re.compile(r"\buse ([^\s{]+)\.\{([^}]*)\}")
ALIAS = re.compile(rf"\bas ({NAME})")
PROOF = ("Proof.antt", "Answers.antt", "Invariants.antt")
# What a name becomes where the rules would make two things one.
CHOSEN = {
    "length-octets": "length_octets_lem",
    "at-octet": "at_octet_lem",
    "at-bit": "at_bit_lem",
    "tailOf": "tail_of",
    "fields-upto": "fields_upto_lem",
    "at-most": "at_most_lem",
    "rowFrom": "row_from",
    "row_from": "row_from_lem",
    "form-at": "form_at_lem",
    "tail-at": "tail_at_lem",
    "countAt": "count_at",
    "count_at": "count_at_lem",
    "kind-at": "kind_at_lem",
    "heard-as": "heard_as_lem",
    "idsSize": "size_of_ids",
    "isServed": "way_served",
    "kind-by": "kind_by_lem",
    "changed-at": "changed_at_lem",
}
# The same in one crate: there the name is a definition's.
CHOSEN_IN = {"serve_leave_records": {"kind-at": "kind_at"}, "codec_read": {"tail_of": "tail_of_lem"}}

# Names that the rules do not see: declared several to a line, behind parameters, or in a lemma file that is called Answers.
MISSED = """by-grab by-inhibit by-offer channel-ids channel-kinds data-on fresh-id is-kind let-in no-grant none-c none-else of-place on-end on-leaving open-m open-n
open-p token-ids token-states token-values user-id user-ids user-links find-inside find-nowhere first-inside found-somewhere skips-most some-kept spare-at
spare-inside spare-nowhere stands-found""".split()
# Types: those that the rules leave with an underscore, in every file; those that they leave in small letters, in the file that declares them, given as a
# module, and where they are taken from it.
LATE = {
    **{it: it.replace("-", "_") for it in MISSED},
    "Private-at": "PrivateAt",
    "Settled-alike": "SettledAlike",
    "Wished-step": "WishedStep",
    "All_bytewise": "AllBytewise",
    "All_marked": "AllMarked",
    "All_right": "AllRight",
    "Channels_same": "ChannelsSame",
    "Comes_legible": "ComesLegible",
    "Data_heard": "HasHeardData",
    "Data_right": "DataRight",
    "Dealing_all": "DealingAll",
    "Equal_left": "EqualLeft",
    "Equal_tables": "EqualTables",
    "Events_bytewise": "EventsBytewise",
    "Free_id": "FreeId",
    "From_image": "FromImage",
    "From_start": "FromStart",
    "From_tables": "FromTables",
    "Has_room": "HasRoom",
    "Heard_right": "HeardRight",
    "In_two": "InTwo",
    "Names_both": "NamesBoth",
    "No_new": "NoNew",
    "No_rule": "NoRule",
    "None_9": "None9",
    "Notes_conform": "NotesConform",
    "One_form": "OneForm",
    "Only_new": "OnlyNew",
    "Tokens_same": "TokensSame",
    "Went_marked": "WentMarked",
    "Went_right": "WentRight",
    "Where_ample": "WhereAmple",
    "Where_room": "WhereRoom",
}
TYPES = {
    "trace_frames.specs.Claims": {"one_answer": "OneAnswer"},
    "trace_frames.specs.Good": {"size_most": "SizeMost"},
    "salvage.specs.Claims": {"all_there": "AllThere", "cut_right": "CutRight", "starts": "Starts", "entry_read": "EntryRead", "never_9": "Never9"},
    "domain.specs.Claims": {"counted": "Counted"},
    "domain.proofs.holders.Silent": {"hushed": "Hushed"},
    "domain.proofs.holders.Agrees": {"fine": "Fine", "read_word": "ReadWord"},
    "domain.proofs.hearers.Recalls": {"fine": "Fine"},
    "domain.proofs.hearers.Joining": {"changes": "Changes"},
    "domain_laws.specs.Built": {"restores": "Restores"},
    "domain_laws.specs.Same": {"same_step": "SameStep", "same_after": "SameAfter", "same_run": "SameRun"},
    "domain_ids.specs.Rolling": {"far_apart": "FarApart"},
    "imaging.specs.Claims": {"images": "Images", "restarts": "Restarts"},
    "serve_token_rules.specs.Deeds": {"telling": "Telling", "doing": "Doing"},
    "history.specs.Claims": {"counted": "Counted", "of_calls": "OfCalls"},
    "history.specs.Restart": {"unnoticed": "RestartUnnoticed"},
}


def files(*endings):
    for folder, folders, names in os.walk(ROOT):
        folders[:] = sorted(it for it in folders if it != "out")
        for name in sorted(names):
            if name.endswith(endings):
                yield os.path.join(folder, name)


def snake(name):
    name = re.sub(r"(?<=[a-z0-9])[A-Z]", lambda m: "_" + m[0].lower(), name.replace("′", "'"))
    return name.replace("-", "_")


def camel(name):
    return re.sub(r"(?:^|[_])(\w)", lambda m: m[1].upper(), snake(name))


def odd(name):
    if re.fullmatch(r"[^\w]+", name):
        return False
    return "-" in name or "′" in name or bool(re.search(r"[a-z0-9][A-Z]", name) and name[0].islower())


def is_type(text, at, indent):
    """Whether the signature that begins at `at` ends in Type."""
    lines = text[at:].split("\n")
    sign = lines[0]
    for line in lines[1:]:
        if len(line) - len(line.lstrip()) <= len(indent):
            break
        sign += " " + line.strip()
    return bool(re.search(r"(?:^|→ |: )\s*Type (?:\S+|\(.*\))$", sign.strip()))


def survey():
    """For each name declared in specs/ and proofs/: the files that declare it, and whether each of them declares a type."""
    where, types = collections.defaultdict(set), collections.defaultdict(list)
    for path in files(".antt", ".rt"):
        text = open(path, encoding="utf-8").read()
        for m in ALIAS.finditer(text):
            if path.endswith(".antt") or "ghost use" in text[text.rfind("\n", 0, m.start()) + 1:m.start()]:
                where[m[1]].add(path)
                types[m[1]].append(None)
        if path.endswith(PROOF) or not path.endswith(".antt"):
            continue
        for m in DECLARED.finditer(text):
            where[m[2]].add(path)
            types[m[2]].append(is_type(text, m.end(), m[1]))
    return where, types


def tokens(text):
    return set(re.findall(NAME, text))


def names():
    where, types = survey()
    new = {}
    for name in where:
        kinds = [it for it in types[name] if it is not None]
        if kinds and all(kinds) and (name[0].islower() and odd(name)):
            new[name] = camel(name)
        elif odd(name):
            new[name] = snake(name)
    new.update({a: b for a, b in CHOSEN.items()})
    # Names that fall together in a file: the definition keeps the plain name.
    met = collections.defaultdict(set)
    for a in where:
        met[new.get(a, a)].add(a)
    used = {}
    for path in files(".antt", ".rt"):
        used[path] = tokens(open(path, encoding="utf-8").read())
    clashes = []
    for b, group in met.items():
        if len(group) < 2:
            continue
        both = [p for p, t in used.items() if len(group & t) > 1]
        if both:
            clashes.append((b, group, both))
    return new, where, clashes


# In Rust's files and in antt's: what is no name, a comment or a string, or else a run of other text.
PIECES = {
    ".rt": re.compile(r"(?P<comment>//[^\n]*)|(?P<string>\"(?:[^\"\\]|\\.)*\"|'(?:[^'\\\n]|\\.)')|(?P<code>(?:(?!//)[^\"'])+|.)", re.S),
    ".antt": re.compile(r"(?P<comment>(?:(?<=\s)|^)--(?=[ \n])[^\n]*)|(?P<string>\"(?:[^\"\\]|\\.)*\")|(?P<code>(?:(?!(?<=\s)--[ \n])(?!^--[ \n])[^\"])+|.)", re.S | re.M),
}


def taken(text):
    """What a file takes from the kit: those names stay."""
    crates = os.listdir(ROOT)
    found = set()
    for m in TAKEN.finditer(text):
        step = m[1].split(".")
        if step[0] != "Rattle" or step[1] not in crates:
            found |= {it.split(" as ")[-1].strip() for it in m[2].split(",")}
    return found


def respelled(text, new, path, behind_dots=True):
    """The text with its names respelled, but for strings and comments. What follows `c.`, `tie.` and the like in a function's proof is the kit's name."""
    kept, proof = taken(text), path.endswith(PROOF)

    def word(m):
        if m[0] not in new or m[0] in kept:
            return m[0]
        if m.start() and m.string[m.start() - 1] == ".":
            head = re.search(rf"(?:{NAME}\.)+$", m.string[: m.start()])
            if not behind_dots or proof and head and head[0].split(".")[0] in ("c", "w", "l", "tie", "goal"):
                return m[0]
        return new[m[0]]

    def piece(m):
        if m["string"]:
            return m[0]
        if m["comment"]:
            return re.sub(r"`[^`]*`", lambda it: re.sub(NAME, word, it[0]), m[0])
        return re.sub(NAME, word, m[0])

    return PIECES[os.path.splitext(path)[1]].sub(piece, text)


def respell(new_in, behind_dots=True):
    """Every file, by the names that `new_in` gives for it."""
    for path in files(".antt", ".rt"):
        with open(path, encoding="utf-8") as it:
            text = it.read()
        done = respelled(text, new_in(path, text), path, behind_dots)
        if done != text:
            with open(path, "w", encoding="utf-8") as it:
                it.write(done)


def crate_of(path):
    return os.path.relpath(path, ROOT).split(os.sep)[0]


def types_in(path, text):
    """The types of TYPES that the file declares or takes."""
    own = os.path.splitext(os.path.relpath(path, ROOT))[0].replace(os.sep, ".")
    found = dict(TYPES.get(own, {}))
    for m in TAKEN.finditer(text):
        here = TYPES.get(m[1].removeprefix("Rattle."), {})
        found.update({a: here[a] for a in (it.strip() for it in m[2].split(",")) if a in here})
    return found


def main():
    new, _, clashes = names()
    if sys.argv[1:] == ["--list"]:
        for a, b in sorted(new.items()):
            print(a, b)
        for b, group, both in clashes:
            print("clash", b, sorted(group), [os.path.relpath(p, ROOT) for p in both][:4], file=sys.stderr)
        return
    respell(lambda path, text: {**new, **CHOSEN_IN.get(crate_of(path), {})})
    respell(lambda path, text: LATE)
    respell(types_in, behind_dots=False)


if __name__ == "__main__":
    main()
