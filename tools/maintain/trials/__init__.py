"""What `tools/dev try SUBJECT` compares: random inputs, what is expected of each, and what comes of it."""
