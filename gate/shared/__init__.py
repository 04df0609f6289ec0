"""The modules that programs of more than one folder use. Those of make and measure reach them by their module shared.py."""
