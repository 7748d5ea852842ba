"""Random order files and journals: a kind and a seed always give the same text."""
