"""The program's test cases: `*.cases` files and their runner."""
