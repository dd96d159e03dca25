"""Hostile inputs, simulators and systems for a built program, and the models that say what it has to answer."""
