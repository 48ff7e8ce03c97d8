"""Searches: many runs of a net or a link in simulated time, and the fewest faults, pauses and losses with which a run fails."""
