"""What `tools/check` is made of: from C sources and compiler options to reports that are explained."""
