"""Plans repeatedly for own ship, from a stream of sentences or in simulated time."""
