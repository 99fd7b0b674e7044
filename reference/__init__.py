"""A second pgplan, written from the rules of docs/ and never proved, that judges the answers of the first.

Each module restates what the crate of its name is for. README.md lists them.
"""
