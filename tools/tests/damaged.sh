# Each tool over 500 damaged reports, 250 damaged texts, reports of other texts, and a device without room: a documented status, and one line.
python3 damaged.py
