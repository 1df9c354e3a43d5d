"""`why`: a page that tells of one pixel all that made it, by the account that the program `why` gives."""
