"""The desk: whole auctions in a browser, faults, and attacks, against a real gateway."""
