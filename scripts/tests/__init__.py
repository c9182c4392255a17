"""Tests of the parts that other scripts rest on, which the gate runs."""
