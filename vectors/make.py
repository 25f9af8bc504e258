#!/usr/bin/env python3
"""Writes the snapshots of this folder with Debian's protobuf-compiler, computes the JSON form of each from its text, and prints both as
cases of crates/feed_cases/data/vectors.cases.

    apt-get install protobuf-compiler; python3 vectors/make.py > crates/feed_cases/data/vectors.cases

Each .textproto is what a snapshot says; `protoc --encode` writes its bytes, fields in the order of their numbers. For the forms the script
reads the .textproto files and the names, numbers and types of gtfs-realtime.proto by itself.
"""
import json, pathlib, re, subprocess

here = pathlib.Path(__file__).parent
PROTO = re.sub(r"//.*", "", (here / "gtfs-realtime.proto").read_text())
TOKEN = re.compile(r'"(?:[^"\\]|\\.)*"|[{}\[\]:=]|[-+\w.]+')


def kinds():
    """The fields of each message by name, the numbers of enums, and the extensions, which are fields of no slot."""
    messages, enums, extensions, open_ = {}, {}, {}, []
    words = iter(TOKEN.findall(PROTO))
    for word in words:
        if word in ("message", "extend", "enum"):
            open_.append((word, next(words)))
            next(words)
        elif word == "}":
            open_.pop()
        elif word in ("optional", "required", "repeated"):
            kind, name, _, number = next(words), next(words), next(words), int(next(words))
            where, owner = open_[-1]
            field = (number, kind, word == "repeated")
            if kind == "group":
                messages[name] = {}
                open_.append(("message", name))
                name = name.lower()
                next(words)
            if where == "extend":
                extensions["realtime." + name] = (number, name if kind == "group" else kind)
            else:
                messages.setdefault(owner, {})[name] = field
        elif open_ and open_[-1][0] == "enum":
            if next(words) == "=":
                enums[word] = int(next(words))
    return messages, enums, extensions


MESSAGES, ENUMS, EXTENSIONS = kinds()
WHOLE = {"int32", "int64", "uint32", "uint64", "fixed32", "fixed64"}


def text_of(word):
    return word[1:-1].encode().decode("unicode_escape").encode("latin-1").decode()


def plain(kind, word):
    if kind == "string":
        return text_of(word)
    if kind == "bool":
        return word == "true"
    return int(word) if kind in WHOLE else ENUMS[word]


def varint(number):
    number %= 2 ** 64
    low = bytearray()
    while number > 127:
        low.append(number % 128 + 128)
        number //= 128
    return bytes(low) + bytes([number])


def spelled(number, wire, value):
    tag = varint(number * 8 + wire)
    if wire == 0:
        return tag + varint(value)
    return tag + varint(len(value)) + value


def group(words, fields):
    out = b""
    for name, kind, word in members(words, fields):
        number = fields[name][0]
        out += spelled(number, 2, text_of(word).encode()) if kind == "string" else spelled(number, 0, int(word))
    return out.hex()


def members(words, fields):
    """The scalars of a message up to its closing brace."""
    for word in words:
        if word == "}":
            return
        next(words)
        yield word, fields[word][1], next(words)


def unknown(words, name):
    number, kind = EXTENSIONS[name]
    if kind not in WHOLE and kind not in ("string", "bool"):
        next(words)
        group_name = next(n for n in MESSAGES if n.lower() == kind)
        return {"number": number, "wire": 3, "value": group(words, MESSAGES[group_name])}
    next(words)
    word = next(words)
    if kind == "string":
        return {"number": number, "wire": 2, "value": text_of(word).encode().hex()}
    wire = {"fixed64": 1, "fixed32": 5}.get(kind, 0)
    return {"number": number, "wire": wire, "value": int(word) % 2 ** 64}


def message(words, kind):
    """The form of a message, from behind its opening brace to its closing one, or to the end."""
    form = {}
    for word in words:
        if word == "}":
            break
        if word == "[":
            form.setdefault("unknown", []).append(unknown(words, next(words)))
            continue
        number, of, repeated = MESSAGES[kind][word]
        sign = next(words)
        value = message(words, of) if sign == "{" else plain(of, next(words))
        if repeated:
            form.setdefault(word, []).append(value)
        else:
            form[word] = value
    if "unknown" in form:
        form["unknown"].sort(key=lambda item: item["number"])
    return form


def words_of(text):
    # a bracket that closes the name of an extension says nothing
    return iter([word for word in TOKEN.findall(text) if word != "]"])


def bytes_of(data):
    return subprocess.run(
        ["protoc", "--encode=realtime.FeedMessage", "-I", str(here), "gtfs-realtime.proto"],
        input=data, stdout=subprocess.PIPE, check=True).stdout


HEAD = """\
# Snapshots that another implementation wrote: Debian's protobuf-compiler, from the texts in vectors/. Their JSON forms are computed by a
# script from the same texts. `python3 vectors/make.py` prints this text.
"""

CASE = """
== {name}.textproto, {length} bytes
bytes {name}
{digits}
bytes {name}_form
{form}
decode
+ ${name}
= entities {entities}
written
+ ${name}
=+ ${name}
copied
+ ${name}
=+ ${name}
json
+ ${name}
=+ ${name}_form
json-tree
+ ${name}
=+ ${name}_form
from-json
+ ${name}_form
=+ ${name}
"""


def in_lines(sign, pieces):
    return "\n".join(sign + " " + piece for piece in pieces)


def case(path):
    form = message(words_of(path.read_text()), "FeedMessage")
    data = bytes_of(path.read_bytes())
    digits = data.hex()
    text = json.dumps(form, sort_keys=True, separators=(",", ":"), ensure_ascii=False)
    return CASE.format(
        name=path.stem, length=len(data), entities=len(form.get("entity", [])),
        digits=in_lines("+", [digits[i:i + 96] for i in range(0, len(digits), 96)]),
        form=in_lines(":", re.split(r'(?<=[}\]],)|(?<=,)(?="[a-z_]+":[{\[])', text)))


def main():
    print(HEAD + "".join(case(path) for path in sorted(here.glob("*.textproto"))), end="")


if __name__ == "__main__":
    main()
