"""What the benchmarks of bench/ share: figures and their page, servers, load, and stores of many objects."""
