"""The tables of an index."""
TABLES = "users", "names", "owners", "files", "blobs", "yanks", "cases", "bans"
