"""What the tools that ask a PostgreSQL server share: psql calls, its export as a pgplan script, types, and its SELECTs in pgplan's form."""
