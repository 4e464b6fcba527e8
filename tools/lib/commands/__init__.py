"""What `tools/check_commands` is made of: the C files of a compile_commands.json, preprocessed, read, checked and told of."""
