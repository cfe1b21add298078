"""What one firm may do to the others: rates, shares and limits. No firm waits for another's mailbox."""
