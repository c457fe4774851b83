"""What other programs have, as tables: each reader says what it cannot carry over."""
