"""The rules as a program, written from their text alone, in their order: the machine; items 1 (names), 2 (memory),
3 (user), 4 (image), 5 (layout) and 6 (segments); the ten calls with the order of their numbers (calls); and the listing.
It has request 1, the alignment field (image); request 4, the bad address (user, and calls for push); request 5, the
machine's numbers in a file (setup): a rule that named one of them names that of a set; request 7, the flag table in a file (flags),
which the image reader takes; request 9, the other form of an image (aout); and request 10, the book of mappings (memory), which fork
shares text and rodata by.

It is slow and plain on purpose: it stands beside the proved library and the Rust as a third reading of the same rules.
"""
