"""Nets of hosts: programs on any number of links. One process carries all links, on one clock and into one transcript."""

from hinge.net.described import NetError
from hinge.net.running import CommandFailed, Net, Obeyed

__all__ = ["CommandFailed", "Net", "NetError", "Obeyed"]
