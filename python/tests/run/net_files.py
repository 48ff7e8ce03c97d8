"""Files from which a test makes a plan. Those for `hinge net` are read, planned and refused."""

import os

import pytest

from with_folder import WithFolder
from hinge.net.description import Description, read_description
from hinge.net.net_plan import NetPlan
from hinge.run.words import Wrong

TWO = "host a\nhost b\n"


class OfFiles(WithFolder):
    def setUp(self) -> None:
        super().setUp()
        self.path = self.folder / "x.net"

    def file(self, data: "str | bytes") -> str:
        """Writes one of several files."""
        path = self.folder / str(len(os.listdir(self.folder)))
        path.write_bytes(data if isinstance(data, bytes) else data.encode())
        return str(path)

    def net(self, text: str) -> Description:
        self.path.write_text(text)
        return read_description(str(self.path))

    def plan(self, text: str) -> list[str]:
        """Returns the lines of a net's plan, without seeds."""
        return [line for line in NetPlan(self.net(text), 1500).plan.text(1).splitlines() if not line.startswith("seed")]

    def wrong(self, text: str) -> str:
        with pytest.raises(Wrong) as found:
            NetPlan(self.net(text), 1500)
        return str(found.value).replace(str(self.path), "x.net")
