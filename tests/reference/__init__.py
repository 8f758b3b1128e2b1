"""The reference: a second implementation of the rules of docs/METHOD.md in Python, written without the engine's code."""
