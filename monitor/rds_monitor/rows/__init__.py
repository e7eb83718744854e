"""Sources of decoded rows: recordings, listings, groups in hexadecimal; their times and common options."""
