"""What `packaging/try` uses: a clean Debian, booted or not, and the units in it."""
