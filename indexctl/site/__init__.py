"""The pages for everybody: a list of all projects, and a page of each."""
