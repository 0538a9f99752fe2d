"""A view that steps through a run of a module, over `mb build`, `mb state` and `mb run`."""
