"""What tools/explain says of reports, refusals, wrong words and checkers, beside what metalcheck itself writes."""
