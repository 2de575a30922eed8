"""The second simulator: all of 01, with W2, in two modes that share no algorithm, and what draws cases for it."""
