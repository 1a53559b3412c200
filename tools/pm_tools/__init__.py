"""Tools over the traces and scenarios of pm_trace: docs/TOOLS.md says how to use them."""
