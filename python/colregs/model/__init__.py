"""What the tools know: scenarios and their keys, the rows of reports, vessels' places, and what is doubtful in them."""
