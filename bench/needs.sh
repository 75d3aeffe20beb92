# For the benches: goes to the top of the repository, and ends where a command that is named isn't on the PATH.
cd "$(dirname "${BASH_SOURCE[0]}")/.."
for need in "$@"; do
    if ! command -v "$need" > /dev/null; then
        echo "bench: '$need', which measures, is not on the PATH" >&2
        exit 127
    fi
done
