"""Comments in C that silence reports: where they stand, which reports they take out, and which of them silence nothing."""
