"""The commands of bin/: a module for each, with its words."""
