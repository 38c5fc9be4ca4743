"""The page that shows waits in a browser: what it shows, as plain data, and the server that hands it out."""
