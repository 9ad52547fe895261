"""Parts of tools/listings."""
