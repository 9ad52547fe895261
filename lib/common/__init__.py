"""What several tools for users have in common."""
