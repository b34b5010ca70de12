"""The zones that name servers hold, as their own tools print them, and the plain text that groot reads."""
