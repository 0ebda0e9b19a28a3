"""The subjects of pi_cases: a module each, with a function rows(out), and beside them what several need: how rows are written
(rows), calls of the top call (calls), the worked file (five) and altered copies of it (altered)."""
