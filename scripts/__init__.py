"""What the scripts at the top share."""
