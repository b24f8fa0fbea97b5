"""What `tools/constants` is made of: Poseidon2 and its constants, by Python's standard library alone."""
