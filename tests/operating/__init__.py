"""What an operator meets: a configuration at fault, and what a start would find."""
