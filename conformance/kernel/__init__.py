"""Finds the calls in which a Linux kernel differs from the machine."""
