"""What the tests try: scripts, texts, requests of HTTP and desks that were left. What is random hangs on a seed alone; nothing here asks the
program.
"""
