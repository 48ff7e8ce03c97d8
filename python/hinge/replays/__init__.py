"""Replays: packets and their results, read from a report or a history."""
