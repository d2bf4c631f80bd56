"""Compares what oai_xml reads of texts at random with what expat and libxml2 read of them."""

import ctypes
import ctypes.util
import random
import re
import subprocess
import sys
from xml.parsers import expat

from oai.element_texts import fault_of
from oai.tools import Tool

# What stands between two texts: no character of XML.
BETWEEN = "\x1e"

# The namespaces that declarations name.
SPACES = ["", "http://u/", "urn:v", "http://www.w3.org/1999/xlink", "urn:x&amp;y", "http://www.w3.org/XML/1998/namespace"]

NAMES = ["a", "b", "record", "datafield", "é", "x-1", "_y.z", "a", "b"]

# Pieces of texts, and of values.
TEXTS = ["x", "Äß€𝄞", " ", "\n", "\r\n", "\r", "\t", "&lt;", "&amp;", "&gt;", "&#233;", "&#x1D11E;", "&#13;", "]]", ">", "'", '"', "<!-- c -->", "<?p q?>", "<![CDATA[<&>]]>", "<![CDATA[]]]]>"]
VALUES = ["x", "é", " ", "\n", "\t", "\r\n", "&lt;", "&amp;", "&quot;", "&apos;", "&#10;", "&#9;", "&#x41;", ">", "]]>"]

# What a text is mutilated by.
WRONG = ["<", ">", "&", "/", "=", "'", '"', "]]>", "--", "<!", "?>", "xmlns:p='urn:v'", ":", " ", "\x00", "\x0b", "￾", "1", "&x;", "&#0;", "<!DOCTYPE a>", "a='1' a='2'", "</a>", "<a>", "×"]


class Author:
    """Texts at random, most of which are elements."""

    def __init__(self, seed):
        self.chance = random.Random(seed)

    def pick(self, of):
        return self.chance.choice(of)

    def some(self, of, most):
        return "".join(self.pick(of) for _ in range(self.chance.randint(0, most)))

    def name(self, prefixes):
        return self.pick(["", "", *[prefix + ":" for prefix in prefixes]]) + self.pick(NAMES)

    def attribute(self, name):
        quote = self.pick("'\"")
        value = self.some(VALUES, 4).replace(quote, "")
        return self.pick([" ", "\n\t", "  "]) + name + self.pick(["=", " = ", "=\n"]) + quote + value + quote

    def declarations(self, prefixes):
        """Declarations of a tag, and the prefixes that are declared within it."""
        made, declared = "", list(prefixes)
        for prefix in self.chance.sample(["", "p", "q", "xml"], self.pick([0, 0, 1, 1, 2])):
            space = SPACES[-1] if prefix == "xml" else self.pick(SPACES[:-1] if prefix == "" else SPACES[1:-1])
            made += f' xmlns{prefix and ":" + prefix}="{space}"'
            if prefix not in ("", "xml"):
                declared.append(prefix)
        return made, declared

    def element(self, depth, prefixes):
        declarations, declared = self.declarations(prefixes)
        name = self.name(declared)
        names = {self.name([*declared, "xml"]) for _ in range(self.pick([0, 0, 1, 1, 2, 4]))}
        tag = name + "".join(self.attribute(other) for other in sorted(names)) + declarations
        if self.chance.random() < 0.2:
            return f"<{tag}/>"
        inside = ""
        for _ in range(self.pick([0, 1, 2, 4]) if depth else 0):
            inside += self.some(TEXTS, 3) + self.element(depth - 1, declared)
        return f"<{tag}{self.pick(['', ' '])}>{inside}{self.some(TEXTS, 4)}</{name}{self.pick(['', '', ' '])}>"

    def text(self):
        """A document."""
        opening = self.pick(["", "", "", '<?xml version="1.0"?>', "<?xml version='1.0' encoding='UTF-8'?>\n", "<?xml version='1.0' standalone='no' ?>"])
        around = ["", "", "\n", "<!-- c -->", "<?p q?>"]
        return opening + self.pick(around) + self.element(self.pick([0, 1, 2, 3]), []) + self.pick(around)

    def mutilated(self, text):
        """The same with a few changes."""
        for _ in range(self.pick([1, 1, 1, 2, 3])):
            at = self.chance.randint(0, len(text))
            change = self.pick(["cut", "put", "twice", "wrong", "wrong"])
            length = self.chance.randint(1, 4)
            if change == "cut":
                text = text[:at] + text[at + length:]
            elif change == "put":
                text = text[:at] + self.pick(TEXTS) + text[at:]
            elif change == "twice":
                text = text[:at] + text[at:at + length] + text[at:]
            else:
                text = text[:at] + self.pick(WRONG) + text[at:]
        return text


def seen_by_expat(text):
    """What expat reads of a text: starts, ends and texts with namespaces; None where it refuses it. Nothing where there is a document type."""
    events = []

    def start(name, attributes):
        events.append(("start", name, tuple(sorted(attributes.items()))))

    def characters(data):
        if events and events[-1][0] == "text":
            events[-1] = ("text", events[-1][1] + data)
        else:
            events.append(("text", data))

    def doctype(*_):
        raise ValueError("a document type")

    parser = expat.ParserCreate("UTF-8", "\n")
    parser.namespace_prefixes = True
    parser.StartElementHandler, parser.EndElementHandler = start, lambda name: events.append(("end", name))
    parser.CharacterDataHandler, parser.StartDoctypeDeclHandler = characters, doctype
    try:
        parser.Parse(text.encode("utf-8"), True)
    except (expat.ExpatError, ValueError):
        return None
    return events


class Fault(ctypes.Structure):
    """The first members of an error of libxml2."""

    _fields_ = [("domain", ctypes.c_int), ("code", ctypes.c_int), ("message", ctypes.c_char_p), ("level", ctypes.c_int)]


class Libxml2:
    """libxml2, by its functions."""

    NOERROR, NOWARNING, NONET = 1 << 5, 1 << 6, 1 << 11
    # Complaints of namespaces that are no URIs, or no absolute ones.
    OF_URIS = (99, 100)
    silence = ctypes.CFUNCTYPE(None, ctypes.c_void_p, ctypes.c_void_p)(lambda *_: None)

    def __init__(self):
        self.library = ctypes.CDLL(ctypes.util.find_library("xml2") or "libxml2.so.2")
        self.library.xmlReadMemory.restype = ctypes.c_void_p
        self.library.xmlReadMemory.argtypes = [ctypes.c_char_p, ctypes.c_int, ctypes.c_char_p, ctypes.c_char_p, ctypes.c_int]
        self.library.xmlGetIntSubset.restype = ctypes.c_void_p
        self.library.xmlGetIntSubset.argtypes = [ctypes.c_void_p]
        self.library.xmlFreeDoc.argtypes = [ctypes.c_void_p]
        self.library.xmlSetStructuredErrorFunc(None, self.silence)
        self.library.xmlGetLastError.restype = ctypes.POINTER(Fault)
        self.library.xmlC14NDocDumpMemory.argtypes = [ctypes.c_void_p, ctypes.c_void_p, ctypes.c_int, ctypes.c_void_p, ctypes.c_int, ctypes.POINTER(ctypes.c_void_p)]

    def seen(self, text):
        """The canonical XML of a text, without comments and instructions; None where it is refused, or where there is a document type."""
        self.library.xmlResetLastError()
        data = text.encode("utf-8")
        document = self.library.xmlReadMemory(data, len(data), b"", b"UTF-8", self.NOERROR | self.NOWARNING | self.NONET)
        if not document:
            return None
        try:
            # (a fault of a namespace is an error that gives a document all the same)
            fault = self.library.xmlGetLastError()
            if (fault and fault.contents.level > 1 and fault.contents.code not in self.OF_URIS) or self.library.xmlGetIntSubset(document):
                return None
            written = ctypes.c_void_p()
            length = self.library.xmlC14NDocDumpMemory(document, None, 0, None, 0, ctypes.byref(written))
            # (a relative namespace has no canonical XML)
            canonical = ctypes.string_at(written.value, length).decode("utf-8") if written.value else ""
            return re.sub(r"<\?.*?\?>", "", canonical, flags=re.DOTALL).strip("\n")
        finally:
            self.library.xmlFreeDoc(document)


# Characters of the texts here that names have by the fifth edition of XML 1.0, which expat does not know: é in their place.
FIFTH_EDITION = str.maketrans("€𝄞", "éé")


def is_declared_otherwise(text):
    """Whether a text says that it is in another encoding than UTF-8, or of the version `1.`: the others pass over both."""
    said = re.match(r"""<\?xml\s[^>]*?encoding\s*=\s*["']([^"']*)""", text)
    return (said is not None and said[1].lower() != "utf-8") or re.match(r"""<\?xml\s+version\s*=\s*["']1\.["']""", text) is not None


def differences(text, read, libxml2):
    """How what is read of a text differs from what the others read."""
    seen, canonical = seen_by_expat(text), libxml2.seen(text)
    at = fault_of(text)
    if at != (int(read[1:]) if read[0] == "!" else None):
        yield f"not as the productions have it: {at}"
    if read[0] == "!":
        if seen is not None and canonical is not None and not is_declared_otherwise(text):
            yield f"refused at byte {read[1:]}, and taken by both"
        return
    if seen is None:
        if seen_by_expat(text.translate(FIFTH_EDITION)) is None:
            yield "taken, and refused by expat"
    elif seen != seen_by_expat(read[1:]):
        yield "not the same by expat"
    if canonical is None:
        yield "taken, and refused by libxml2"
    elif canonical.replace(' xmlns=""', "") != (libxml2.seen(read[1:]) or "").replace(' xmlns=""', ""):
        yield "not the same by libxml2"


def elements(count: int, seed: int = 1):
    """Compares what is read of texts at random with what expat and libxml2 read of them.

    COUNT texts are made of a seed, most of them elements, and as many that are mutilated. A program over oai_xml reads
    each. A text has to be taken where both others take it, and to be refused where one of them refuses it, or where it
    has a document type. Not counted are texts that name another encoding than UTF-8 or the version `1.`, which both
    others pass over, and names by the fifth edition, which expat refuses. Of a text that is taken the others have to
    see the same in it as in its canonical text: names with their namespaces, attributes with their values, and texts;
    comments and instructions are left out. A text that is refused has to be so at the byte of its first fault, by the
    productions (scripts/oai/element_texts.py). Each difference is printed. The last line is
    `N texts, M taken, D differences`; the status is 0 where D is 0.
    """
    author, libxml2 = Author(f"elements {seed}"), Libxml2()
    texts = [author.text() for _ in range(count)]
    texts += [author.mutilated(text) for text in texts]
    with Tool("read_elements", built=True) as tool:
        source, target = tool.folder / "texts", tool.folder / "read"
        source.write_text(BETWEEN.join(texts), encoding="utf-8", newline="")
        program = tool.folder / "out" / "read_elements"
        if tool.rt("run", output=tool.folder / "log") and not program.exists():
            sys.stderr.write((tool.folder / "log").read_text(encoding="utf-8", errors="replace"))
            return 2
        with open(source, "rb") as given, open(target, "wb") as taken:
            subprocess.run([program], stdin=given, stdout=taken, check=True)
        read = target.read_bytes().decode("utf-8").split(BETWEEN)[:-1]
    differ = abs(len(read) - len(texts))
    for text, one in zip(texts, read):
        for difference in differences(text, one, libxml2):
            print(f"{difference}: {text!r}", f"read as {one!r}", sep="\n  ")
            differ += 1
    print(f"{len(texts)} texts, {sum(one[0] == '=' for one in read)} taken, {differ} differences")
    return 1 if differ else 0
