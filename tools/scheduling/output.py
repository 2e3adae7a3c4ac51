"""Standard output, written whole or not without a word."""

import os
import sys


class NotWritten(Exception):
    """Not all was written; why, or nothing where the reader went away."""


def write(output):
    """Write bytes to standard output, all or as many as go."""
    if sys.stdout is None:
        raise NotWritten("nothing could be written: standard output is "
                         "closed")
    try:
        while output:
            output = output[os.write(1, output):]
        os.close(1)  # some file systems tell only now that they are full
    except BrokenPipeError:  # the reader has seen enough
        raise NotWritten from None
    except OSError as wrong:
        raise NotWritten("not all could be written to standard output: %s"
                         % wrong.strerror) from None
