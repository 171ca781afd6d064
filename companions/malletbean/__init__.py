"""What astronomers do next with the texts of `psr_search`: arrays, pictures and tables. Nothing here is proved."""
from __future__ import annotations

TYPE_CHECKING = False
if TYPE_CHECKING:
    from .headers import Header, header
    from .refusal import Refusal
    from .texts import Found, read

MODULES = {"Found": "texts", "Header": "headers", "Refusal": "refusal", "header": "headers", "read": "texts"}
__all__ = ["Found", "Header", "Refusal", "header", "read"]


def __getattr__(name: str) -> object:
    """Imports what is asked for when it is asked for, since some modules need no numpy."""
    if name not in MODULES:
        raise AttributeError(f"module {__name__} has no attribute {name}")
    from importlib import import_module
    return getattr(import_module(f".{MODULES[name]}", __name__), name)
