"""The texts that `lkb` writes and reads, and forms of other tools: readers and writers for `lkb-page` and `lkb-convert`."""
