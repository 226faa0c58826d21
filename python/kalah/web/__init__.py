"""The tool `web`: a server and the files of its page."""
