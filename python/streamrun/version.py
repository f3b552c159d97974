"""The version of the file VERSION. Made by scripts/shell_files."""
VERSION = '1.0.0'
