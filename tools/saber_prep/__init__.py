"""The pre-pass that makes C files of today loadable. `cli.main` is the program."""
