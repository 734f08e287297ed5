"""Network and traffic documents from a table with a row for each of their parts."""
