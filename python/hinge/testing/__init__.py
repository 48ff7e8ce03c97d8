"""Tests over emulated links, in real and in simulated time."""
