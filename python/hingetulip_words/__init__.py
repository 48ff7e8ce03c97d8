"""The words that describe links, and advice on wrong words. `hinge` and `hingetulip` share this package, and don't need each other.
"""
