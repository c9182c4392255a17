"""Clients of MySQL's protocol, and the daemon that they are let at."""
