"""Elements of an XML file with their lines, read once, with the memory of one record.

The parser is expat. It declares no entities, since a file with a document type is refused, and it opens nothing else.
"""

from __future__ import annotations

from typing import BinaryIO, Dict, Iterator, List, NamedTuple
from xml.parsers import expat

from gtd._fault import Fault

_BLOCK = 1 << 16
_DEEPEST = 128  # levels of elements
_MOST_SIBLINGS = 64  # children that are kept of an element around what is looked for
_MOST_INSIDE = 10_000  # elements of one specification
_LONGEST_TEXT = 4096  # characters of a value: no longer text is one
_KNOWN_NAMES = 4096
_TYPE = "http://www.w3.org/2001/XMLSchema-instance type"
_NO_ATTRIBUTES: Dict[str, str] = {}


class XmlElement:
    """An element with its line.

    Its name is the local one in the namespaces that are looked for, and otherwise ``{namespace}name``.
    """

    __slots__ = ("name", "line", "attributes", "children", "text", "is_leaf", "is_cut", "is_found")

    def __init__(self, name: str, line: int, attributes: Dict[str, str]) -> None:
        self.name, self.line, self.attributes = name, line, attributes
        self.children: List[XmlElement] = []
        self.text = ""
        self.is_leaf = True
        self.is_cut = False
        """Whether some of what is in it was dropped, because there was too much."""
        self.is_found = False
        """Whether it has a child of the name that is looked for."""

    @property
    def value(self) -> str:
        """The text of an element without children, without the space around it; else an empty text."""
        return self.text.strip(" \t\r\n") if self.is_leaf else ""

    @property
    def id(self) -> str:
        """The attribute ``id``."""
        return self.attributes.get("id", "")

    @property
    def version(self) -> str:
        """The attribute ``version``."""
        return self.attributes.get("version", "")

    @property
    def type_name(self) -> str:
        """The local name of its ``xsi:type``, or else its own."""
        return self.attributes.get(_TYPE, self.name).rpartition(":")[2]


class FoundElement(NamedTuple):
    """An element that was looked for."""

    element: XmlElement
    around: List[XmlElement]
    """The elements around it, from the outermost on."""


def find_parents(file: BinaryIO, name: str, namespace: str) -> Iterator[FoundElement]:
    """Each element that has a child of this name, in a namespace that begins so. The child is kept whole.

    Raises
    ------
    Fault
        ``'Xml'``, ``'Doctype'``, with the line. Elements before it may have been yielded.
    """
    reader = _Reader(name, namespace)
    try:
        while True:
            block = file.read(_BLOCK)
            reader.parser.Parse(block, not block)
            yield from reader.found
            reader.found.clear()
            if not block:
                return
    except expat.ExpatError as error:
        raise Fault("Xml", line=error.lineno, note=expat.ErrorString(error.code)) from None


class _Reader:
    """Keeps the elements that are open, and below those that matter their children."""

    def __init__(self, name: str, namespace: str) -> None:
        self.found: List[FoundElement] = []
        self._name, self._namespace = name, namespace
        self._names: Dict[str, str] = {}
        self._open: List[XmlElement] = []
        self._depth_inside = 0  # elements of the name that are open
        self._kept_inside = 0
        self.parser = expat.ParserCreate(namespace_separator=" ")
        self.parser.buffer_text = True
        self.parser.StartDoctypeDeclHandler = self._refuse_doctype
        self.parser.StartElementHandler = self._begin
        self.parser.CharacterDataHandler = self._add
        self.parser.EndElementHandler = self._end

    def _refuse_doctype(self, *_: object) -> None:
        raise Fault("Doctype", line=self.parser.CurrentLineNumber, note="a file without a document type")

    def _begin(self, name: str, attributes: Dict[str, str]) -> None:
        line, opened = self.parser.CurrentLineNumber, self._open
        if opened:
            opened[-1].is_leaf = False
        if len(opened) >= _DEEPEST:
            raise Fault("Xml", line=line, note=f"at most {_DEEPEST} levels of elements")
        local = self._names.get(name) or self._local_name(name)
        opened.append(XmlElement(local, line, _NO_ATTRIBUTES if self._depth_inside else attributes))
        if local == self._name:
            self._depth_inside += 1
            self._kept_inside = 0

    def _local_name(self, name: str) -> str:
        space, _, local = name.rpartition(" ")
        found = local if space.startswith(self._namespace) else f"{{{space}}}{local}"
        if len(self._names) < _KNOWN_NAMES:
            self._names[name] = found
        return found

    def _add(self, text: str) -> None:
        element = self._open[-1]
        if element.is_leaf and len(element.text) < _LONGEST_TEXT:
            element.text += text

    def _end(self, _: str) -> None:
        element, opened = self._open.pop(), self._open
        is_searched = element.name == self._name
        self._depth_inside -= is_searched
        if element.is_found:
            self.found.append(FoundElement(element, list(opened)))
        elif is_searched:
            if opened:
                opened[-1].is_found = True
                opened[-1].children.append(element)
        elif self._depth_inside:
            self._keep_inside(element, opened[-1])
        elif opened and len(opened[-1].children) < _MOST_SIBLINGS:
            element.children = []
            opened[-1].children.append(element)

    def _keep_inside(self, element: XmlElement, around: XmlElement) -> None:
        """Keep an element of a searched one, as long as there are not too many."""
        self._kept_inside += 1
        if self._kept_inside <= _MOST_INSIDE:
            around.children.append(element)
        if self._kept_inside > _MOST_INSIDE or element.is_cut:
            around.is_cut = True
