"""Receivers of a network, day and night; and `check`, the plugin of monitoring systems."""
