"""How tools/new-map writes a map: its code, its definitions and its proofs."""
