# Sourced by calculator: settings under which the checker is fastest. They change no verdict.
# A check writes thousands of small temporary files: keep them in memory if the machine has a folder for that. The folder is private, and whoever sources this
# removes it at the end, since an interrupted check leaves its files behind. (Programs are run as another user, who has to pass through it.)
TMPDIR=$(if [ -d /dev/shm ] && [ -w /dev/shm ]; then mktemp -d -p /dev/shm; else mktemp -d; fi)
chmod 711 "$TMPDIR"
# The checker's allocator keeps its memory instead of handing it back and asking again.
MIMALLOC_PURGE_DELAY=-1
export TMPDIR MIMALLOC_PURGE_DELAY
