"""The typed calls of ../c/owlantimony_typed.h by ctypes, as far as `scripts` makes them."""
import ctypes
from ctypes import POINTER, byref, c_bool, c_size_t, c_uint8, c_uint16, c_uint32, c_void_p

CALL, OK = 18, 0
REFUSALS = ("ok syntax busy foreign unknown wrong-kind hierarchy not-found not-supported invalid-character selector index-size type limit").split()


class Document(ctypes.Structure):
    """owl_document"""

    _fields_ = [("is_open", c_bool), ("held", c_void_p), ("told", c_size_t)]


class Node(ctypes.Structure):
    """owl_node"""

    _fields_ = [("owner", c_uint32), ("number", c_uint32)]


class Point(ctypes.Structure):
    """owl_point"""

    _fields_ = [("node", Node), ("offset", c_uint32)]


class Span(ctypes.Structure):
    """owl_span"""

    _fields_ = [("at", c_uint32), ("count", c_uint32)]

    def of(self, array):
        """The part of an array."""
        return array[self.at : self.at + self.count] if self.count else []


class Attribute(ctypes.Structure):
    """owl_attribute"""

    _fields_ = [("name", Span), ("value", Span)]


class Row(ctypes.Structure):
    """owl_row"""

    _fields_ = [("node", Node), ("kind", c_uint32), ("parent", c_uint32), ("name", Span), ("data", Span), ("attributes", Span)]


class Delivery(ctypes.Structure):
    """owl_delivery"""

    _fields_ = [(name, c_uint32) for name in ("kind", "owner", "number", "flags")]
    _fields_ += [(name, Node) for name in ("target", "current", "related", "previous", "next")]
    _fields_ += [(name, Span) for name in ("label", "name", "path", "added", "removed", "old_value")]
    _fields_ += [("has_old_value", c_uint32)]


class Answer(ctypes.Structure):
    """owl_answer"""

    _fields_ = []
    for _name, _one, _kind in (
        ("deliveries", "delivery", Delivery),
        ("nodes", "node", Node),
        ("rows", "row", Row),
        ("attributes", "attribute", Attribute),
        ("units", "unit", c_uint16),
        ("bytes", "byte", c_uint8),
    ):
        _fields_ += [(_name, POINTER(_kind)), (f"{_one}_count", c_size_t)]
    _fields_ += [("called", Span)]

    def text(self, span):
        """Bytes of the answer as text."""
        return bytes(span.of(self.bytes)).decode("latin-1")


NONE = Node(2**32 - 1, 0)


def bytes_of(word):
    """A word as a call takes it: an array and a size."""
    return (c_uint8 * len(word)).from_buffer_copy(word.encode()), c_size_t(len(word))


def units_of(units):
    """Units as a call takes them."""
    return (c_uint16 * max(1, len(units)))(*units), c_size_t(len(units))


class Lent:
    """An array that a call lends: a pointer and a count."""

    def __init__(self, kind):
        self.at, self.count = POINTER(kind)(), c_size_t()

    def words(self):
        """What a call takes."""
        return byref(self.at), byref(self.count)

    def list(self):
        """What was lent."""
        return self.at[: self.count.value] if self.count.value else []
