"""`mireseason-certify`: tries a firm's desk against a venue of its own, case by case."""
