"""The cases of try_hostile.py, and what a command has to answer to them."""
