"""What stands beside the proofs: the gate, the cases, the figures and the clients (README.md)."""
