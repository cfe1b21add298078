"""The text cases of the crates, without a proof."""
