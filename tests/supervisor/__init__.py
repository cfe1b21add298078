"""What the supervisor's commands make of a day: exports, confirmations, figures, pages."""
