"""What tools/test has in files of its own."""
