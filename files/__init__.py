"""Many files for `smash`: running, settling, formats, traces and hints beside the proved program.

Nothing here decides a verdict. Each `proved` and `found` that is printed is a line that the proved program printed of
the very bytes that were read, or a list of inputs on which its `replay` failed at that place, or a proof of those bytes
that its `recheck` accepted.
"""

VERSION = "1"
