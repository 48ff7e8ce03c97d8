"""Events in a run: changes to links and acts on hosts, requested by a file, a seed, the control socket or Python."""
