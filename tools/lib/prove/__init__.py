"""Proves what stands below the program, crate by crate and side by side, and builds the program. ./prove is its command."""
