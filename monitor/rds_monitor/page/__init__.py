"""The page of `rds-monitor report`."""
