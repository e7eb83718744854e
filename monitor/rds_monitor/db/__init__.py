"""The database of recordings."""
