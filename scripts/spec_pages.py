"""What scripts/make_entries and scripts/make_believe read of the sources: the definitions of crates/*/specs, what rests on
what, and which definitions the contract of a function cites."""
import pathlib
import re

ROOT = pathlib.Path(__file__).resolve().parent.parent
# Crates whose contracts are no entries of the library: what C calls, its arrays, the program that compares answers, the edge
# file and its program.
APART = ("exports", "c_", "replay", "edge")

USE = re.compile(r"^(?:ghost )?use Rattle\.(\w+)\.specs\.([\w.]+?)(?:\.\{([^}]*)\}| as (\S+?));?$", re.M)
HEAD = re.compile(r"^( *(?:pub )?(?:abbrev |unfoldable )?(?:pub )?([^\s:{}()=]+) : .*)$", re.M)


def imports(text):
    """The names that a file takes one by one, name -> (crate, page, its name there), and the pages that it takes whole, by
    the name that it gives them."""
    names, whole = {}, {}
    for crate, page, listed, alias in USE.findall(text):
        if alias:
            whole[alias] = (crate, page)
        for name in filter(None, map(str.strip, listed.split(","))):
            first, _, last = name.partition(" as ")
            names[last or first] = (crate, page, first)
    return names, whole


def definitions():
    """(crate, page) -> (names, whole, texts: name -> text, heads: name -> the line that starts it)."""
    out = {}
    for file in sorted(ROOT.glob("crates/*/specs/*.antt")):
        text = file.read_text()
        pieces = HEAD.split(text)
        texts = dict(zip(pieces[2::3], pieces[3::3]))
        heads = dict(zip(pieces[2::3], pieces[1::3]))
        out[file.parts[-3], file.stem] = (*imports(text), texts, heads)
    return out


def words(text):
    """The names in a text, an operator as its definition names it too."""
    found = set(re.findall(r"[^\s(){},;]+", re.sub(r"--.*", "", text)))
    return found | {f"◌{word}◌" for word in found} | ({"◌>>=◌"} if "←" in found else set())


def cited(text, names, whole):
    """The definitions that a text names, by what its file takes: (crate, page, name)."""
    for word in words(text):
        first, _, rest = word.partition(".")
        if word in names:
            yield names[word]
        elif rest and first in whole:
            yield *whole[first], rest.strip("«»")


def reached(defs, crate, page, name, seen):
    """All definitions that one rests on, itself too: (crate, page, name) -> text."""
    if (crate, page) not in defs or (crate, page, name) in seen:
        return seen
    names, whole, texts, heads = defs[crate, page]
    if name not in texts:
        return seen
    text = heads[name] + texts[name]
    seen[crate, page, name] = texts[name]
    for place in cited(text, names, whole):
        reached(defs, *place, seen)
    for word in words(text) & set(texts):
        reached(defs, crate, page, word, seen)
    return seen


def functions(file):
    """(the struct or "", is it public, name, contract) of each function of a source that has a contract, in order."""
    text, kind = re.sub(r"//.*", "", file.read_text()), ""
    found = r'^impl (\w+) \{|^\}|^( *)(pub )?(?:extern "C" )?fn (\w+)(?:[^{;]|; \w)*?(?=\n *(?:requires|ensures)|\{)((?:\n *(?:requires|ensures).*)*)'
    for m in re.finditer(found, text, re.M):
        if m.group(4) is None:
            kind = m.group(1) or ""
        elif m.group(5):
            yield kind if m.group(2) else "", bool(m.group(3)), m.group(4), m.group(5)


def sources(*crates):
    """The sources of some crates, or of all that have entries."""
    for file in sorted(ROOT.glob("crates/*/src/**/*.rt")):
        crate = file.parts[file.parts.index("crates") + 1]
        if crate in crates or not crates and not crate.startswith(APART):
            yield crate, file
