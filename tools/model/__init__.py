"""A plain desk, written from the requirements: what it knows is in facts.py, each line of a script is answered in desk.py, and nothing here asks the
program.
"""
