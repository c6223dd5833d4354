"""Long logs, of any number of rows, by windows of them that the program decides (docs/real-logs.md has the reasons)."""
