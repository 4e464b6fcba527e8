"""What the gate costs, by crate and kind: measured while it runs (watch), and as a table (table). checks/times is its command."""
