"""The cases of docs/cases: what reads them, what tries them by the program, and what makes tables of tests of them."""
