"""The kinds of rows that tests/run asks: one module a kind. docs of the tables: tests/README.md."""
