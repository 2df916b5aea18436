"""What the pages of the repository must be: links that lead somewhere, names that are there, and a manual that lacks nothing."""
