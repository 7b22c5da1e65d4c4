"""A real file system on a disk that remembers what was written to it, and whose power can be cut."""
