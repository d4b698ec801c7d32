"""Tables, by the name of the module in tomlkit."""

from .items import Table as Container

OutOfOrderTableProxy = Container

__all__ = ["Container", "OutOfOrderTableProxy"]
