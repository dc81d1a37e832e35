"""The store beside C SQLite, and tables of one edition beside those of another."""
