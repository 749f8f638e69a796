"""The steps of the gate, a module each with a function `main` of its words; `common` is what they share."""
