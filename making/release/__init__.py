"""What makes a release: what was built, how it is packed, and how it is made for other systems."""
