"""The audit of a case: whole, by shares if one run does not take it, and again for each number of a sweep."""
