"""Power cuts of real file systems: README.md says how."""
