"""Mirrors that people play on: processes, links between them, their clock, and a page."""
