# Read by other scripts here. Loops keep processors busy until `end_loops` is called: as many as BUSY says (0).
loops=
end_loops() {
    for loop in $loops; do kill "$loop"; done
}
trap end_loops EXIT
for _ in $(seq "${BUSY:-0}"); do
    (while :; do :; done) &
    loops="$loops $!"
done
