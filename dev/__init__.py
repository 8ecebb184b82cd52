"""Commands for developers of the repository: builds, proofs, checks, tests and measurements. Users run `colregs` and
`tools/`."""
