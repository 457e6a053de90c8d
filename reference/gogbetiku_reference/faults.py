"""The faults of readers, maps, books, desks and commands, and the refusals of clients.

The names are those of docs/SPEC.md and of docs/COMMANDS.md, Statuses. Part of the reference: tested, not proved, and
trusted by no client.
"""


class Named(Exception):
    """A name with its numbers and further names, as `BadLine 3`."""

    def __init__(self, name: str, *fields: int | str):
        super().__init__(name, *fields)
        self.name = name
        self.fields = fields

    def __str__(self) -> str:
        return " ".join([self.name, *map(str, self.fields)])


class Fault(Named):
    """The reason why a command did not do its work."""


class Refused(Named):
    """The first test that a reply fails."""

    def line(self) -> str:
        return f"refused {self}\n"
