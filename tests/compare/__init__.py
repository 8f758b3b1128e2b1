"""Comparisons: the engine beside the reference, each on inputs of one kind, with what they share."""
