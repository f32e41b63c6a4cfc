"""The drawing of an interleaving, from the rows of `explain columns` (docs/COLUMNS.md). Read and placed, never worked out anew."""
