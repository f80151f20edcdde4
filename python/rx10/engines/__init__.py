"""Engines: what starts and ends the places of a job.

An engine hands over the line of each new place, and messages are no part of it. `base` has what the driver asks of it, and what it tells.
"""
