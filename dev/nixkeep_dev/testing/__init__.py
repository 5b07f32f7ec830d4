"""What the scripts of tests/ share: running and reporting, cases, stores, messages, and faults that are planted."""
