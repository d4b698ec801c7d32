"""Documents, by the name of the module in tomlkit."""

from .items import Document as TOMLDocument

__all__ = ["TOMLDocument"]
