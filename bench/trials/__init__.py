"""Random and damaged input for the program, and what the model says of it: the parts of bench/hostile."""
