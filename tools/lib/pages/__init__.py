"""Parts of tools/check-docs, tools/draw-crates and tools/draw-rates."""
