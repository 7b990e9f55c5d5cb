"""Campaigns: a mission flown with one fault after the other."""
