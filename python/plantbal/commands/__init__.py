"""The subcommands around a run, and the words that several subcommands have."""
