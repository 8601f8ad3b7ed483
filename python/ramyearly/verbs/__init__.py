"""The command's verbs, each a module with USAGE and run(arguments, prepare), which answers the exit status."""
