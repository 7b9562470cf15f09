#!/usr/bin/env python3
"""Counts the places of src/ that an older form of the language left: tools/forms.py [-l] [CRATE..]

A line for each point of docs/DESIGN-PASS.md, with how many places it has; -l lists them. What is found is a place to look
at, and the page says which stay and why. It goes by text:

1a  an enum of the shape of Option or Result: a case that holds a value beside one that holds none, or a case that is called
    Accepted, Refused, Bad or Over, in an enum that is no Result's error
1b  a flag with a value beside it: a struct with a bool and another field
1c  a number for a kind or a refusal: a field or parameter called so that is a number
1d  a number for "none": a function whose comment says that it answers one
2a  functions of one crate that are the same text but for names, types and numbers; 2b  structs of all crates likewise
3   a `while` whose condition reads what its body counts up or down by one, and a `loop` that counts so
4   equality, order, copying, conversion and printing by hand: functions with the names below
5a  a fact that three or more functions of a crate require; 5b  three or more parameters that three functions share
6a  an output with a position beside it; 6b  a room with a length beside it; 6c  parallel arrays
7   a match on which step to run: on a value that came in as a kind, a road or a course
"""

import collections
import glob
import re
import sys

FUNCTION = re.compile(r"(?ms)^((?://[^\n]*\n|#\[[^\n]*\n)*)(?:pub(?:\(crate\))? )?(?:extern \"C\" )?fn (\w+)(.*?)^\}")
BY_HAND = re.compile(
    r"^(lesser|greater|apart|less|has_length|one_point|same_as|most|least|both_most|both_less|either_less|wide|widened|"
    r"copied|array_of|hand_back|starts|kind_of|letter_of|answer_code|digit|digit_of|(written|reading|found|answer|coded)_number|"
    r"(reading|coded)_place|above_31|has|fitting|put_decimal)$"
)
NONE = re.compile(
    r"(the answer is 256|256 where|and (0|16|32|256) (where|for|past|of any)|or the (text|alphabet|line)'s (length|end)|or the count of|one past all|"
    r"or past the last|another place where|length where|no (place|number) stood there|; 0 where|is no place)"
)


def sources(names):
    for path in sorted(glob.glob("crates/*/src/*.rt")):
        if not names or path.split("/")[1] in names:
            with open(path, encoding="utf-8") as file:
                yield path, file.read()


def functions(text):
    """Each function: its line, comment, name, head (up to the body) and body."""
    for found in FUNCTION.finditer(text):
        head, _, body = found[3].partition("\n{\n") if "\n{\n" in found[3] else found[3].partition(" {\n")
        yield text.count("\n", 0, found.start(2)) + 1, found[1], found[2], head, body


def shape(text):
    """A text with its names by their order and its numbers left out."""
    names = {}

    def renamed(word):
        if word[0][0].isdigit() or word[0].startswith(("b'", 'b"')):
            return "0"
        return names.setdefault(word[0], f"n{len(names)}")

    text = re.sub(r"//[^\n]*|ensures[^\n]*|requires[^\n]*", "", text)
    return re.sub(r"b'.'|b\"[^\"]*\"|\w+", renamed, re.sub(r"\s+", " ", text))


def enums(path, text, errors):
    for found in re.finditer(r"(?ms)^(?:pub(?:\(crate\))? )?enum (\w+)[^{]*\{\n(.*?)^\}", text):
        cases = re.findall(r"(?m)^    (\w+)([({]?)", found[2])
        holds = [case for case, value in cases if value]
        named = {"Accepted", "Refused", "Bad", "Over"} & {case for case, _ in cases}
        if found[1] not in errors and (named or (holds and len(holds) < len(cases))):
            yield f"{path}:{text.count(chr(10), 0, found.start()) + 1} {found[1]}"


def main():
    words = sys.argv[1:]
    listed = "-l" in words
    all_sources = list(sources([word for word in words if word != "-l"]))
    errors = {name for _, text in all_sources for name in re.findall(r"Result<.*, (?:\w+::)?(\w+)>", text)}
    places = collections.OrderedDict((point, []) for point in "1a 1b 1c 1d 2a 2b 3 4 5a 5b 6a 6b 6c 7".split())
    alike, records = collections.defaultdict(list), collections.defaultdict(list)
    facts, shared = collections.defaultdict(set), collections.defaultdict(set)
    for path, text in all_sources:
        crate = path.split("/")[1]
        places["1a"] += enums(path, text, errors)
        for found in re.finditer(r"(?ms)^(?:pub(?:\(crate\))? )?struct (\w+)[^{;]*\{\n(.*?)^\}", text):
            fields = re.findall(r"(?m)^    (?:pub )?(\w+): (.*),$", found[2])
            where = f"{path}:{text.count(chr(10), 0, found.start()) + 1} {found[1]}"
            if any(kind == "bool" for _, kind in fields) and len(fields) > 1:
                places["1b"].append(where)
            if len(fields) > 1:
                records[tuple(fields)].append(where)
            if [kind for _, kind in fields].count("[u64; PLACES]") > 1:
                places["6c"].append(where)
        for found in re.finditer(r"(?m)\b(kind|letter|refusal|answer|rank|counted|reason): u\d+\b", text):
            places["1c"].append(f"{path}:{text.count(chr(10), 0, found.start()) + 1} {found[0]}")
        for line, comment, name, head, body in functions(text):
            where = f"{path}:{line} {name}"
            if NONE.search(re.sub(r"\n// ", " ", comment)):
                places["1d"].append(where)
            if body.count("\n") > 1:
                alike[crate, shape(head.split("\n    ensures")[0].split("\n    requires")[0] + body)].append(where)
            for found in re.finditer(r"while ([^\n]*) \{\n(.*?)\n    \}", body, re.S):
                counts = re.findall(r"(?m)^\s+(\w+) [+-]= 1;", found[2])
                if not found[1].startswith("let ") and any(re.search(rf"\b{count}\b", found[1]) for count in counts):
                    places["3"].append(f"{where}: while {found[1]}")
            if re.search(r"(?m)\bloop \{$", body) and re.search(r"(?m)^\s+\w+ [+-]= 1;", body):
                places["3"].append(f"{where}: loop")
            if BY_HAND.match(name):
                places["4"].append(where)
            for fact in re.findall(r"requires (?:\w+ )?\{ (.*) \}", head):
                facts[crate, fact].add(where)
            takes = re.findall(r"(\w+): ([^,\n]+(?:\[[^\]]*\])?)", re.split(r"\) ->|\n?\)\n|\)$", head)[0])
            if len(takes) > 2:
                shared[crate, tuple(sorted(name for name, _ in takes))].add(where)
            signature = re.sub(r"\s+", " ", head.split("ensures")[0])
            if re.search(r"&mut \[u8\], (at|from): usize", signature):
                places["6a"].append(where)
            if re.search(r"(room|output|told): &(mut )?\[u8\], (len|count|tells): usize", signature):
                places["6b"].append(where)
            if re.search(r"high: &(mut |'a )?\[u64.*low: &(mut |'a )?\[u64", signature):
                places["6c"].append(where)
            for found in re.finditer(r"match (\w+) \{", body):
                if re.search(rf"\b{found[1]}: (Kind|Road|Course|entitlements::Kind)\b", signature):
                    places["7"].append(where)
    places["2a"] = ["; ".join(group) for group in alike.values() if len(group) > 1]
    places["2b"] = ["; ".join(group) for group in records.values() if len(group) > 1]
    places["5a"] = [f"{fact[1]}: {'; '.join(sorted(at))}" for fact, at in facts.items() if len(at) > 2]
    places["5b"] = [f"{' '.join(names[1])}: {'; '.join(sorted(at))}" for names, at in shared.items() if len(at) > 2]
    for point, found in places.items():
        print(f"{point}: {len(found)}")
        if listed:
            print("".join(f"    {place}\n" for place in found), end="")


main()
