"""The page of what is served: a web server that only reads."""
