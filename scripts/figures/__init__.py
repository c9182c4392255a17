"""What measures the program and the proofs."""
