"""What the tests of clients share: the page of recipes, the people who follow them, and forms."""
