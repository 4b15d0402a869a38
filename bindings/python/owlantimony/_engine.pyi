"""The extension module, as far as the package names it: its other types are those of the classes of the same names in owlantimony.dom."""
from typing import Any

Nodes: Any
Session: Any
