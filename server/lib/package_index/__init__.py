"""What the programs of server/bin share, and indexctl with them: each rule once. The standard library is enough."""
