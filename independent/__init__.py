"""A second program for digital television lines, and its comparison with another one."""
