"""Makes a page of a study: one HTML file that shows a record, or two that differ, and needs no network."""
