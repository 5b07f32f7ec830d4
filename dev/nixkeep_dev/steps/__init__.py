"""Commands for the steps of cases: tests/cases/steps has a program for each."""
