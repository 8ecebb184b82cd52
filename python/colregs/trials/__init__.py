"""Sea trials: encounters drawn from seeds, in which own ship follows her pilot in simulated time."""
