# shellcheck shell=sh
# Which program the scripts run: PESP, else `pesp` in their folder, else in the folder above it, else that of the path. It is
# sourced by a script that has set `scripts`, the folder of this file.
if [ -z "${PESP:-}" ]; then
    PESP=pesp
    for place in "$scripts/../pesp" "$scripts/pesp"; do
        if [ -f "$place" ] && [ -x "$place" ]; then
            PESP=$place
        fi
    done
fi
# scripts may change the folder, and portions begin in another one
case $PESP in
[!/]*/*) PESP=$PWD/$PESP ;;
esac
export PESP
command -v "$PESP" >/dev/null || {
    echo "${0##*/}: there is no program $PESP; PESP names one" >&2
    exit 2
}
