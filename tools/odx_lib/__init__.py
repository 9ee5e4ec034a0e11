"""What `odx` is made of: a module for each of its words, and what they share."""
