"""Code that writes pages of docs/."""
