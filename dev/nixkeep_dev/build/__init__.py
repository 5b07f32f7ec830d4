"""The program `nixkeep`: proving and building it, the released one, and where an installation has what."""
