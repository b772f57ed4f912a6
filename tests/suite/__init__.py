"""What `./test` is made of: programs that are run, cases that are judged, and what is said of them."""
