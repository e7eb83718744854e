"""Which stations a capture of IQ has, as a table and as a picture."""
