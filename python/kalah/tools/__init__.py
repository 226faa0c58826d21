"""The tools of `python3 -m kalah`: each module is a command, but for `page` and `played`, which some share."""
