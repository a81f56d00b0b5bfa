"""What the tools in Python share: the co-process, captures, and the words of scripts.

Nothing here is proved, and nothing here decides what is asked, kept or answered: `resolve_serve` does.
"""
