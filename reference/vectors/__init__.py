"""The cases of the vector programs."""
