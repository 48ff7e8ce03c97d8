"""Returns the cut or the heal."""
