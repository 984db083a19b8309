"""What `.ci/outside` is made of."""
