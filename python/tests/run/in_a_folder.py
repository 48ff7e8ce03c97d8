"""Runs of `hinge net` and commands behind `hinge run`, with the files in their folder."""

import json
import subprocess
import sys
from typing import Any

from linked import Done, audited_as_lawful, hinge, run
from with_folder import WithFolder

CERTIFICATE = ["openssl", "req", "-x509", "-newkey", "rsa:2048", "-nodes", "-subj", "/CN=server", "-days", "2"]


class InAFolder(WithFolder):
    def setUp(self) -> None:
        super().setUp()
        self.file, self.logs = self.folder / "x.net", self.folder / "logs"

    def net(self, text: str, *words: str, seconds: float = 60) -> Done[str]:
        """Runs a net, whose transcript and summary are then in `out`."""
        self.file.write_text(text)
        return hinge("net", self.file, "--transcripts", self.folder / "out", *words, seconds=seconds)

    def logged(self, text: str, *words: str, seconds: float = 60) -> Done[str]:
        """Runs a net, with the hosts' output in `logs`."""
        return self.net(text, "--logs", str(self.logs), *words, seconds=seconds)

    def script(self, name: str, text: str) -> str:
        """Writes a Python program; returns its command."""
        (self.folder / name).write_text(text)
        return f"{sys.executable} {self.folder / name}"

    def summary(self) -> Any:
        return json.loads((self.folder / "out" / "net.json").read_text())

    def history(self) -> str:
        audited_as_lawful(self, self.folder / "out" / "net.history")
        return (self.folder / "out" / "net.history").read_text()

    def assert_lawful(self) -> None:
        """Asserts that the links are lawful, and so is the path between them."""
        self.history()
        self.assertEqual(hinge("look", self.folder / "out").stdout.splitlines()[-1], "lawful between links")

    def packets(self) -> dict[str, int]:
        """Returns the number of packets by way, for ways with packets."""
        return {f"{way['from']} > {way['to']}": way["came"] for way in self.summary()["ways"] if way["came"]}


class Behind(WithFolder):
    def summary(self, *words: str, seconds: float = 60) -> tuple[Done[str], dict[str, Any]]:
        """Runs a command; returns its summary, too."""
        done = run("--json", self.folder / "json", *words, seconds=seconds)
        return done, json.loads((self.folder / "json").read_text())

    def certificate(self) -> tuple[str, str]:
        key, certificate = f"{self.folder}/key", f"{self.folder}/certificate"
        subprocess.run([*CERTIFICATE, "-keyout", key, "-out", certificate], check=True, capture_output=True)
        return key, certificate
