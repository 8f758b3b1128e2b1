"""Mistakes made on purpose: the must-fail edits, and one-token wrong edits of definitions and code, with where the prover refuses them."""
