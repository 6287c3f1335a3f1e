"""What goes in and out of an office: tables, labels, pages, calendars, and what is published."""
