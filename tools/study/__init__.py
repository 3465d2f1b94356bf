"""The parts of coz-study: a module for each of its commands, and those that they share."""
