"""A test with a temporary folder, removed with the test."""

import tempfile
import unittest
from pathlib import Path


class WithFolder(unittest.TestCase):
    def setUp(self) -> None:
        folder = tempfile.TemporaryDirectory()
        self.addCleanup(folder.cleanup)
        self.folder = Path(folder.name)
