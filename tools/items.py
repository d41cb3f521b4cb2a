"""What crates/ declares, by name: definitions, types, promises, proofs and edits, each with its text, in which comments and layout do not count."""
import re

STRING = r'"(?:[^"\\]|\\[\s\S])*"'
QUOTED = r"\bb'(?:[^'\\]|\\.)'|'[][(){}\"]'"
GENERICS = r"<(?:->|[^<>]|<(?:->|[^<>]|<(?:->|[^<>])*>)*>)*>"
MARKS = r"(?:(?:abbrev|unfoldable|axiom|pub) )*"


def without_comments(text, mark):
    """The text without its comments, as many lines: what follows the mark on a line, unless the mark stands in a string."""
    comment = r"(?:(?<=\s)|^)--[^\n]*|\{-[\s\S]*?-\}" if mark == "--" else r"//[^\n]*|/\*[\s\S]*?\*/"
    return re.sub(r"(%s|%s)|%s" % (STRING, QUOTED, comment), lambda found: found.group(1) or "\n" * found.group(0).count("\n"), text, flags=re.M)


def squeezed(text):
    """The words of a text with one space between them; a string is one word, as it stands."""
    return " ".join(word for piece in re.split("(%s)" % STRING, text) for word in ([piece] if piece.startswith('"') else piece.split()))


# ---- imports

def imports(text):
    """The imported names, each as the words that show its use, with the file that it comes from. The file's name alone: one that changes its crate
    moves nobody."""
    origin = []
    for path, names in re.findall(r"^\s*(?:ghost )?use ([^\s{};]+)\.\{(.*?)\}", text, re.M | re.S):
        for words in (name.split() for name in names.split(",")):
            if words:
                origin.append(({part for part in words[-1].split("◌") if part}, "%s of %s" % (words[0], path.split(".")[-1])))
    for path in imported(text):
        of, _, name = path.rpartition("::")
        origin.append(({name}, "%s of %s" % (name, of.split("::")[-1])))
    return origin


def imported(text):
    """The paths that code imports, one for each name: of `use a::{b, c::{d, e}};` a::b, a::c::d and a::c::e."""
    found = []

    def within(prefix, words):
        for word in (word.strip() for word in re.findall(r"(?:[^,{}]|\{(?:[^{}]|\{[^{}]*\})*\})+", words)):
            group = re.match(r"([\w:]*?)(?:::)?\{(.*)\}$", word, re.S)
            if group:
                within(prefix + ([group.group(1)] if group.group(1) else []), group.group(2))
            elif word:
                found.append("::".join(prefix + [word.split()[0]]))

    for path in re.findall(r"^[ \t]*(?:pub(?:\([a-z]+\))? )?use ([\w:]+(?:::\{[^;]*\})?);", text, re.M):
        within([], path)
    return [path for path in found if "::" in path]


def with_origins(item, origin):
    bare = re.sub(STRING, " ", item)
    words = set(re.split(r"[\s(){}.,;]+", bare)) | set(re.findall(r"[\w'-]+", bare))
    return " | ".join([item] + sorted(told for parts, told in origin if parts <= words))


# ---- definitions and laws

def chunks(lines):
    """The pieces of a block: each line at the block's own indent begins one, and deeper lines go on with it."""
    depth = None
    pieces = []
    for line in lines:
        if not line.strip():
            continue
        indent = len(line) - len(line.lstrip())
        if depth is None:
            depth = indent
        if indent <= depth:
            pieces.append([])
        pieces[-1].append(line)
    return pieces


def header(piece):
    """How many lines the header of a module takes, which `where` ends."""
    return next((n + 1 for n, line in enumerate(piece) if re.search(r"\bwhere\s*$", line)), len(piece))


def gather(lines, prefix, around, items):
    """Puts each declaration of a block under its name. What stands around it, the headers of its sections, is a part of it."""
    name = None
    for piece in chunks(lines):
        text = squeezed("\n".join(piece))
        if re.match(r"(?:pub )?(?:use|mod) ", text):
            continue
        section = re.match(r"(?:pub )?module (\S+)|mutual\b", text)
        if section:
            n = header(piece) if section.group(1) else 1
            inner = prefix + "." + section.group(1) if section.group(1) not in (None, "_") else prefix
            gather(piece[n:], inner, around + [squeezed("\n".join(piece[:n]))], items)
            name = None
            continue
        if text.startswith("open "):
            around = around + [text]
            continue
        fixity = re.match(r"infix[lr]? \d+ (\S+)$", text)
        declared = re.match(MARKS + r"(?:record|data) (\S+)", text) or re.match(MARKS + r"(\S+)(?: \{[^{}]*\})? :(?: |$)", text)
        if fixity or declared:
            name = "%s.%s" % (prefix, (fixity or declared).group(1))
            items.setdefault(name, " ".join(around))
        if name is None:
            name = prefix + ", not under a signature"
            items.setdefault(name, "")
        items[name] += " " + text
    return items


def antt_items(path, text):
    prefix = re.sub(r"crates/(\w+)/(?:specs|proofs)/(.*)\.antt$", r"\1.\2", path).replace("/", ".")
    text = without_comments(text, "--")
    origin = imports(text)
    return {name: with_origins(item, origin) for name, item in gather(text.split("\n"), prefix, [], {}).items()}


# ---- promises and types

def module_of(path):
    crate, module = re.match(r"crates/(\w+)/src/(.*)\.rt$", path).groups()
    return "::".join([crate] + [part for part in module.split("/") if module != "lib"])


def closing(text, at):
    """The place after the bracket that closes the one at a place."""
    depth = 0
    for found in re.finditer(r"%s|%s|[({\[]|[)}\]]" % (STRING, QUOTED), text[at:]):
        depth += 1 if found.group(0) in "({[" else -1 if found.group(0) in ")}]" else 0
        if depth == 0:
            return at + found.end()
    return len(text)


def head(text, at):
    """A function from its place to its body: the first brace that opens no clause of its contract. A clause may have a name. A trait's function may have
    no body, and ends before its semicolon."""
    end = closing(text, text.index("(", at))
    while True:
        stop = re.compile(r"[{;(\[]").search(text, end)
        if not stop:
            return text[at:]
        brace = stop.start()
        if stop.group(0) in "([":
            end = closing(text, brace)
            continue
        if stop.group(0) == ";":
            return text[at:brace]
        if not re.search(r"\b(?:requires|ensures|measure|decreases)(?: \w+)?\s*$", text[at:brace]):
            return text[at:brace]
        end = closing(text, brace)


def blocks(text):
    """Each trait and each `impl` block: where it begins and ends, its head, and the name of the trait, or of the type that has the functions itself."""
    heads = re.finditer(r"^ *(?:unsafe )?(?:impl(?:%s)?|(?:pub(?:\([a-z]+\))? )?(?:unsafe )?trait) (\w+)[^{]*\{" % GENERICS, text, re.M)
    return [(m.start(), closing(text, m.end() - 1), squeezed(m.group(0)[:-1]), m.group(1)) for m in heads]


def functions(text):
    """Each function: where it begins, its name, and its text without its body."""
    heads = re.finditer(r"^ *((?:#\[.*\]\s*)*)((?:pub(?:\([a-z]+\))? )?(?:extern \"C\" )?fn (\w+)\s*(?:%s\s*)?\()" % GENERICS, text, re.M)
    return [(m.start(2), m.group(3), squeezed(m.group(1) + head(text, m.start(2)))) for m in heads]


def methods(text):
    """Each trait and each `impl` block: its head, its name, its text, and its functions by name."""
    text = without_comments(text, "//")
    return [(top, of, text[start:end], {name: item for at, name, item in functions(text) if start < at < end}) for start, end, top, of in blocks(text)]


def named(table, prefix, name, item):
    """Under its name; a second one of that name joins the first."""
    key = "%s::%s" % (prefix, name)
    table[key] = table[key] + " ; " + item if key in table else item


def promises(path, text):
    items, prefix = {}, module_of(path)
    text = without_comments(text, "//")
    origin, within = imports(text), blocks(text)
    for at, name, item in functions(text):
        owner = "".join(of + "::" for start, end, top, of in within if start < at < end)
        named(items, prefix, owner + name, with_origins(item, origin))
    return items


def ending(text, at, word):
    """Where a type or a constant ends: after its semicolon, or after the braces of a struct, an enum or a trait."""
    while True:
        found = re.compile(r"[;({\[]|%s|%s" % (STRING, QUOTED)).search(text, at)
        if not found:
            return len(text)
        if found.group(0) == ";":
            return found.end()
        at = closing(text, found.start()) if found.group(0) in "({[" else found.end()
        if found.group(0) == "{" and word in ("struct", "enum", "trait"):
            return at


def types(path, text):
    items, prefix = {}, module_of(path)
    text = without_comments(text, "//")
    origin = imports(text)
    for found in re.finditer(r"^ *((?:#\[.*\]\s*)*)((?:pub(?:\([a-z]+\))? )?(struct|enum|trait|const|type) (\w+))", text, re.M):
        item = squeezed(found.group(1) + text[found.start(2):ending(text, found.end(), found.group(3))])
        named(items, prefix, found.group(4), with_origins(item, origin))
    return items


# ---- proofs and edits

def proofs(path, text):
    """A function's proof is in one file, or in two, which are told together."""
    of = re.match(r"crates/(\w+)/proofs/(.*)/(?:Proof|Invariants|Answers)\.antt$", path)
    if not of:
        return antt_items(path, text)
    text = without_comments(text, "--")
    return {"::".join([of.group(1), *of.group(2).split("/")]): with_origins(squeezed(re.sub(r"(?m)^use .*$", "", text)), imports(text))}


def edits(path, text):
    return {re.sub(r"crates/(\w+)/must-fail/(.*)\.edit$", r"\1/\2", path): "\n".join(line for line in text.split("\n") if not line.startswith("#"))}


KINDS = {
    "definitions": (r"crates/\w+/specs/.*\.antt$", antt_items),
    "types": (r"crates/\w+/src/.*\.rt$", types),
    "promises": (r"crates/\w+/src/.*\.rt$", promises),
    "proofs": (r"crates/\w+/proofs/.*\.antt$", proofs),
    "edits": (r"crates/\w+/must-fail/[^/]*\.edit$", edits),
}


def table(files, kind):
    pattern, items = KINDS[kind]
    found = {}
    for path in sorted(files):
        if re.match(pattern, path):
            for name, item in items(path, files[path]).items():
                found[name] = found[name] + " ; " + item if name in found else item
    return found
