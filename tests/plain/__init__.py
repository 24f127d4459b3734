"""A second, plain reading of STEP files under EXPRESS schemas, written from the rules in docs. README.md leads through it."""
