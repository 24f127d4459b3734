"""What tests/fuzz.py tries: texts of parameters, schemas and files, made by rules and mutated."""
