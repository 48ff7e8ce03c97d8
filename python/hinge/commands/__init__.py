"""The commands of `hinge`, one module each."""
