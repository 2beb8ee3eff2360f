"""Real transactions: the tools of docs/REAL.md. Tested, not proved."""
