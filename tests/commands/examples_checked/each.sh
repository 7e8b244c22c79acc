for case in examples/*.case; do
    basename "$case" .case
done
