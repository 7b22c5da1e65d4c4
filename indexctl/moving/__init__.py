"""Projects that move: from a folder or another index to this one, and from this one into a folder."""
