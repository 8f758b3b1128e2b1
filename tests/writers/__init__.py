"""Writers of stored files: computed statements and vectors of the reference, example files, and the list of promises."""
