"""Pictures of reports: what the program printed, as a drawing in text and as SVG."""
