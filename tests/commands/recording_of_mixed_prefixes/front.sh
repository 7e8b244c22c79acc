cat tests/commands/recording_of_prefixes/stdin
