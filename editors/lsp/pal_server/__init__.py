"""A language server for module tables and Pal sources, over `mb check` and `mb lint`."""
