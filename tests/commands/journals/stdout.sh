cat examples/smallest.out
