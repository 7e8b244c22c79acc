cat examples/smallest.case
