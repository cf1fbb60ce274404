"""Proofs that scripts share: the kit, the store of proved crates, toolchains made of them, and archives of those."""
