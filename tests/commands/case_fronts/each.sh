seq 0 113
