"""Edits that the prover must refuse, tried many in one check. tools/gate/edits.py is the command."""
