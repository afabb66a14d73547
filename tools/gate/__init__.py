"""Parts of ./check and tools/measure that speak of proofs: which cores there are, copies of the tree with fewer crates, what a proof took."""
