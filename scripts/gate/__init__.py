"""The merge gate, and what it looks at that no case of docs/cases has."""
