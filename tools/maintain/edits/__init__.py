"""Trying the wrong bodies that the gate passes over."""
