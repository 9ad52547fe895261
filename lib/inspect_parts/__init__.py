"""Reads image files, checks them by the rules of docs/FORMAT.md, and shows them as pages of HTML."""
