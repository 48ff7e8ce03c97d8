"""Configuration lines, as the program reads them and as other programs spell them."""
