"""Imported first by the command line: while the rest is imported, Ctrl-C ends the process without a traceback.

The launcher has the signal ignored until here, and the command line has a handler of its own once it begins.
"""
import signal

signal.signal(signal.SIGINT, signal.SIG_DFL)
