"""What `.ci/documents` makes from the sources, and what it checks in the documents."""
