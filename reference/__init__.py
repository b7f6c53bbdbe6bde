"""The independent second program, written from the words of document 01 and of landed requests alone.

It shares no code and no table with crates/ and is slow where the words are slow.
"""
