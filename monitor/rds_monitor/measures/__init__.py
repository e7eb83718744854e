"""Reception of a station by the interval: block errors, outages, groups, PI codes."""
