"""C99 source of one checked program: what `r2u2-generate` writes."""
