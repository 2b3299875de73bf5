"""Document 01 with requests (i) to (iii) and (v) to (viii) of document 02: a device, its events, answers, recordings."""
