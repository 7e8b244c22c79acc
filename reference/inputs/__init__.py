"""Generators of inputs. Each draws from the generator of numbers that it is given, and from nothing else."""
