"""The parts of tools/audit: what reads the repository, and the rules, one concern a file."""
