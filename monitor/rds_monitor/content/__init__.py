"""What stations say of themselves."""
