"""Makers of inputs: cases, files, histories of months and windows of days, right ones, damaged ones and random ones."""
