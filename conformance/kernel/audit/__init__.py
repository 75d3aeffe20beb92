"""Reads the state of hugetlb's pools out of a kernel or a dump of one, and checks what is proved of the machine on it."""
