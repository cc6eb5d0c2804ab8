"""What tools/sheet is made of. By docs/FORMAT.md, apart from the definitions: nothing is shared with tests/data, so that trying one against
the other says something."""
