"""How the compiler for guests is checked: what `scripts/check-compile` runs."""
