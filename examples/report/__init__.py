"""The modules of navreport."""
