"""Reading the crates' sources as text: what functions promise, and what definitions and lemmas there are."""
