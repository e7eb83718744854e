"""From signals and other forms of bits to recordings of packed bits."""
