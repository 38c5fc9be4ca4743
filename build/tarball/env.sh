# shellcheck shell=sh
# env.sh: sets what a shell needs to find the programs, tools, man pages and libraries of this folder. Read it with
#
#     . ./env.sh
#
# in this folder; or, in bash, from any folder by its path.

# Only bash has this variable: the path of the file that it reads.
# shellcheck disable=SC3028
histdesk_folder=$(dirname -- "${BASH_SOURCE:-./env.sh}")
histdesk_folder=$(cd -- "$histdesk_folder" && pwd)
if [ -x "$histdesk_folder/bin/histdesk" ]; then
    export PATH="$histdesk_folder/bin:$PATH"
    # A colon at the end stands for the folders of the system.
    export MANPATH="$histdesk_folder/share/man:${MANPATH-}"
    export PYTHONPATH="$histdesk_folder/PACKAGES${PYTHONPATH:+:$PYTHONPATH}"
    export LD_LIBRARY_PATH="$histdesk_folder/lib${LD_LIBRARY_PATH:+:$LD_LIBRARY_PATH}"
    export PKG_CONFIG_PATH="$histdesk_folder/lib/pkgconfig${PKG_CONFIG_PATH:+:$PKG_CONFIG_PATH}"
else
    echo "env.sh: histdesk isn't in $histdesk_folder; change to the folder of env.sh first" >&2
fi
unset histdesk_folder
