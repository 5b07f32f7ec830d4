"""The sources in Rattle as texts: functions, contracts, the page of promises, and wrong bodies."""
