"""Texts that are one XML element, read by expat, and the byte of the first fault of one that is none.

What is read is told by expat. The place of a fault is told by a scanner, by the productions of XML 1.0 (fifth edition) and Namespaces in XML 1.0, since expat names
the beginning of what it could not read. An error of expat where the scanner finds no fault is an error of this module.
"""

import os
import re
from typing import NamedTuple
from xml.parsers import expat

LEVELS, ATTRIBUTES, DECLARATIONS = 128, 64, 128

XML, XMLNS = "http://www.w3.org/XML/1998/namespace", "http://www.w3.org/2000/xmlns/"

ILLEGAL = re.compile("[\x00-\x08\x0b\x0c\x0e-\x1f\ud800-\udfff\ufffe\uffff]")
SPACES = re.compile("[ \t\r\n]*")
STARTS = (
    "A-Z_a-z\xc0-\xd6\xd8-\xf6\xf8-\u02ff\u0370-\u037d\u037f-\u1fff\u200c\u200d\u2070-\u218f\u2c00-\u2fef"
    "\u3001-\ud7ff\uf900-\ufdcf\ufdf0-\ufffd\U00010000-\U000effff"
)
NCNAME = f"[{STARTS}][-.0-9\xb7\u0300-\u036f\u203f\u2040{STARTS}]*"
QNAME = re.compile(f"(?:{NCNAME}:)?{NCNAME}")
TARGET = re.compile(f"(?![Xx][Mm][Ll]$){NCNAME}")
# All that a name could be of, from its first character on.
NAME_RUN = re.compile("[-._:0-9A-Za-z\x80-\U0010ffff]*")
ENTITIES = {"lt;": "<", "gt;": ">", "amp;": "&", "apos;": "'", "quot;": '"'}

IN_TEXT = str.maketrans({"&": "&amp;", "<": "&lt;", ">": "&gt;", "\r": "&#13;"})
IN_ATTRIBUTE = IN_TEXT | str.maketrans({'"': "&quot;", "\t": "&#9;", "\n": "&#10;"})


class NoElement(Exception):
    """A text is no element, as is found at its byte `at`."""

    def __init__(self, at):
        super().__init__(at)
        self.at = at


class Element(NamedTuple):
    """The canonical text of an element, and the namespace and local name of its root."""

    text: str
    namespace: str
    local: str


class Scanner:
    """Passes over the productions of a document, up to the first fault."""

    def __init__(self, text):
        self.text, self.at = text, 0

    def fault(self, more=0):
        """The fault at this place, or so many bytes behind it."""
        return NoElement(len(self.text[: self.at].encode()) + more)

    def stands(self, literal):
        return self.text.startswith(literal, self.at)

    def literal(self, literal):
        """Passes over the literal; a fault is at the first byte that is another."""
        for it in literal:
            if not self.stands(it):
                raise self.fault(len(os.path.commonprefix([it.encode(), self.text[self.at : self.at + 1].encode()])))
            self.at += 1

    def spaces(self, least=0):
        end = SPACES.match(self.text, self.at).end()
        if end - self.at < least:
            raise self.fault()
        self.at = end

    def up_to(self, mark):
        """Passes over the mark, and all before it."""
        found = self.text.find(mark, self.at)
        self.at = len(self.text) if found < 0 else found + len(mark)
        if found < 0:
            raise self.fault()

    def name(self, pattern):
        run = NAME_RUN.match(self.text, self.at)
        if not pattern.fullmatch(run[0]):
            raise self.fault()
        self.at = run.end()
        return run[0]

    def quote(self):
        if not (self.stands('"') or self.stands("'")):
            raise self.fault()
        self.at += 1
        return self.text[self.at - 1]

    def equals(self):
        self.spaces()
        self.literal("=")
        self.spaces()

    # ---- the document

    def document(self):
        if re.match("<\\?xml[ \t\r\n]", self.text):
            self.at = len("<?xml")
            self.declaration()
        self.miscellaneous()
        self.literal("<")
        self.element(LEVELS, OUTSIDE)
        self.miscellaneous()
        if self.at < len(self.text):
            raise self.fault()

    def declaration(self):
        self.pseudo_attribute("version", "1.")
        for name in ("encoding", "standalone"):
            if self.text.startswith(name, SPACES.match(self.text, self.at).end()):
                self.pseudo_attribute(name, "")
        self.spaces()
        self.literal("?>")

    def pseudo_attribute(self, name, front):
        self.spaces(1)
        self.literal(name)
        self.equals()
        quote = self.quote()
        self.literal(front)
        if name == "version":
            digits = re.compile("[0-9]*").match(self.text, self.at).end()
            if digits == self.at:
                raise self.fault()
            self.at = digits
        elif name == "encoding":
            if self.text[self.at : self.at + 5].lower() != "utf-8":
                raise self.fault()
            self.at += 5
        else:
            self.literal("yes" if self.stands("y") else "no")
        self.literal(quote)

    def miscellaneous(self):
        self.spaces()
        while self.stands("<!") or self.stands("<?"):
            if self.stands("<!"):
                self.literal("<!--")
                self.comment()
            else:
                self.at += 2
                self.instruction()
            self.spaces()

    def comment(self):
        self.up_to("--")
        self.literal(">")

    def instruction(self):
        self.name(TARGET)
        if self.stands("?"):
            self.literal("?>")
        else:
            self.spaces(1)
            self.up_to("?>")

    # ---- elements, behind their `<`

    def element(self, levels, scope):
        if not levels:
            raise self.fault()
        name, inner = self.start_tag(scope)
        if self.stands("/"):
            self.literal("/>")
            return
        self.literal(">")
        while not self.stands("</"):
            self.piece(levels - 1, inner)
        self.at += 2
        self.literal(name)
        self.spaces()
        self.literal(">")

    def start_tag(self, scope):
        """The name, and the scope within. A fault of namespaces, or of the size, is at what closes the tag."""
        name, attributes = self.name(QNAME), []
        while not self.text.startswith((">", "/"), SPACES.match(self.text, self.at).end()):
            self.spaces(1)
            attribute = self.name(QNAME)
            self.equals()
            attributes.append((attribute, self.value(self.quote())))
        self.spaces()
        inner = scope.within(attributes)
        if not inner.is_whole(name, attributes):
            raise self.fault()
        return name, inner

    def value(self, quote):
        value = []
        while not self.stands(quote):
            if self.stands("&"):
                value.append(self.reference())
                continue
            if self.at == len(self.text) or self.stands("<"):
                raise self.fault()
            value.append(" " if SPACES.match(self.text[self.at])[0] else self.text[self.at])
            self.at += 1
        self.at += 1
        return "".join(value)

    def piece(self, levels, scope):
        if self.stands("<!-"):
            self.literal("<!--")
            self.comment()
        elif self.stands("<!"):
            self.literal("<![CDATA[")
            self.up_to("]]>")
        elif self.stands("<?"):
            self.at += 2
            self.instruction()
        elif self.stands("<"):
            self.at += 1
            self.element(levels, scope)
        elif self.stands("&"):
            self.reference()
        elif self.stands("]]>"):
            raise self.fault(2)
        elif self.at == len(self.text):
            raise self.fault()
        else:
            self.at += 1

    def reference(self):
        """The character that a reference stands for."""
        self.at += 1
        if self.stands("#"):
            self.at += 1
            return self.character()
        for name, character in ENTITIES.items():
            if self.stands(name):
                self.at += len(name)
                return character
        raise self.fault()

    def character(self):
        base, value = (16 if self.stands("x") else 10), 0
        self.at += base == 16
        while not self.stands(";"):
            digit = "0123456789abcdef".find(self.text[self.at : self.at + 1].lower() or "none", 0, base)
            if digit < 0 or value * base + digit > 0x10FFFF:
                raise self.fault()
            value = value * base + digit
            self.at += 1
        if ILLEGAL.match(chr(value)):
            raise self.fault()
        self.at += 1
        return chr(value)


# ---- namespaces


def prefix_of(name):
    return name.rpartition(":")[0]


def declared_by(name):
    """The prefix that an attribute of this name declares, or None."""
    prefix, _, local = name.rpartition(":")
    return "" if name == "xmlns" else local if prefix == "xmlns" else None


class Scope(NamedTuple):
    """What prefixes are declared as, how many declarations are in force, and those of the tag itself."""

    spaces: dict
    count: int
    declared: list

    def within(self, attributes):
        declared = [(declared_by(name), value) for name, value in attributes if declared_by(name) is not None]
        # (a root that declares no default namespace is given one)
        declared += [("", "")] * (not self.count and "" not in dict(declared))
        return Scope(self.spaces | dict(declared), self.count + len(declared), declared)

    def is_whole(self, name, attributes):
        """Whether a tag may stand in this scope, of which it is."""
        names = [it for it, _ in attributes]
        given = {it for it in map(declared_by, names) if it is not None}
        size = len(names) + sum(prefix not in given for prefix, _ in self.declared)
        expanded = [(self.spaces.get(prefix_of(it)), it.rpartition(":")[2]) for it in names if prefix_of(it)]
        return (
            size <= ATTRIBUTES
            and self.count <= DECLARATIONS
            and all(is_legal(*it) for it in self.declared)
            and prefix_of(name) != "xmlns"
            and all(prefix_of(it) in self.spaces for it in [name, *names])
            and len(set(names)) == len(names)
            and len(set(expanded)) == len(expanded)
        )


# What is in force around a root.
OUTSIDE = Scope({"xml": XML, "xmlns": XMLNS}, 0, [])


def is_legal(prefix, namespace):
    """Whether a prefix may be declared so."""
    return prefix != "xmlns" and (prefix == "xml") == (namespace == XML) and namespace != XMLNS and (prefix == "" or namespace != "")


# ---- the whole


def fault_of(text):
    """The byte of a text's first fault; None where it is an element."""
    illegal = ILLEGAL.search(text)
    front = text[: illegal.start()] if illegal else text
    try:
        Scanner(front).document()
    except NoElement as fault:
        return fault.at
    return len(front.encode()) if illegal else None


def spelled(text):
    """The canonical text of an element, as expat reads it."""
    pieces, depth = [], 0

    def start(name, attributes):
        nonlocal depth
        pairs = list(zip(attributes[::2], attributes[1::2]))
        pairs += [("xmlns", "")] * (depth == 0 and all(it != "xmlns" for it, _ in pairs))
        pieces.append(f"<{name}" + "".join(f' {it}="{value.translate(IN_ATTRIBUTE)}"' for it, value in pairs) + ">")
        depth += 1

    def end(name):
        nonlocal depth
        pieces.append(f"</{name}>")
        depth -= 1

    parser = expat.ParserCreate("UTF-8")
    parser.ordered_attributes, parser.buffer_text = True, True
    parser.StartElementHandler, parser.EndElementHandler = start, end
    parser.CharacterDataHandler = lambda characters: pieces.append(characters.translate(IN_TEXT))
    parser.Parse(text.encode(), True)
    return "".join(pieces)


def root_of(text):
    """The namespace and the local name of the root, as expat reads them. It refuses namespaces that are not whole."""
    names = []
    parser = expat.ParserCreate("UTF-8", "\n")
    parser.StartElementHandler = lambda name, _: names.append(name)
    parser.Parse(text.encode(), True)
    namespace, _, local = names[0].rpartition("\n")
    return namespace, local


def read_element(text):
    """The element that a text is; otherwise `NoElement`."""
    at = fault_of(text)
    if at is not None:
        raise NoElement(at)
    return Element(spelled(text), *root_of(text))
