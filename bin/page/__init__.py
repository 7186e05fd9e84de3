"""The page that `lkb-page` makes: what stands on it (`data`), and its style and scripts, which are put into the one file."""
