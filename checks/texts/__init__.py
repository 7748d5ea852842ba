"""Rules for the texts of the repository, as a reader meets them."""
