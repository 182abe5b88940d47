"""Fits to try a solver on: domes from a seed and other kinds of problems, clique trees, and CVXOPT behind the cut."""
