"""What a script leaves out on a machine that lacks a tool."""

# How a line begins that reports it. The test suite repeats the tools at its end.
SKIPPED = "skipped, without "


def skip(tool, what):
    """Reports what is left out, as this tool is missing."""
    print(f"{SKIPPED}{tool}: {what}", flush=True)


def tool_of(line):
    """Returns the tool of a line that `skip` has printed, or None."""
    return line[len(SKIPPED):].partition(":")[0] if line.startswith(SKIPPED) else None
