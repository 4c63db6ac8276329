"""The desk's command: submissions from plain numbers, sheets, what they say, and the record of years. `main.py` has the command line."""
