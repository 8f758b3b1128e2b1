"""Unit tests: of the reference, the makers, the writers and the comparisons, of the scripts and tools, and of what the pages say."""
