"""Forecasts: durations of callbacks over the rules of the order, and what the rules alone make certain."""
