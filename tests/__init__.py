"""All tests that are not proofs, one folder a subject."""
