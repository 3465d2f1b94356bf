"""The parts of cases/run: the catalogue of cases, the machine, averages over seeds, and the host's own runs."""
