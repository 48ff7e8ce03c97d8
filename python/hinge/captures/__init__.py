"""Captures as input for packet files, and captures as output."""
