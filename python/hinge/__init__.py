"""The kit around dummynet as a single command: `hinge`."""
