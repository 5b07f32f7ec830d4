"""A model of the whole store, written apart from the program: worlds are dictionaries, and reach is a search.

It says what the program prints for a command line and what its server answers to a stream.
`bin/run tests/compare/model.py -k itself` tests the model itself on known values.
"""
