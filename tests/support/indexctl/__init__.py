"""What the tests of indexctl share."""
