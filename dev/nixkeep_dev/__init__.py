"""What builds, tests and measures nixkeep: a package for development, which bin/ runs from a checkout.

`build` proves and builds the program, `commands` are those of bin/, `sources` reads the sources in Rattle, `testing` is
what the scripts of tests/ share, `model` is a model of the whole store, `steps` are commands for cases, and `bench` is
what the benchmarks of bench/ share. It isn't installed. The tools that are installed are the package nixkeep_tools.
"""
