#!/usr/bin/env bash
# words.sh [HISTDESK [PLAINDESK [ASKAGAIN [HISTWATCH]]]]: tests the arguments that HISTDESK takes and those that it doesn't,
# and files that it can't read. program.sh says more about the arguments of this script.
set -uo pipefail

tests=$(dirname -- "$(dirname -- "$(realpath -- "${BASH_SOURCE[0]}")")")
. "$tests/counts.sh"
. "$tests/program/common.sh"

mkdir "$folder/folder"

gives no_words 0 "" "$histdesk"
gives two_dashes 0 "" "$histdesk" --
gives standard_input 0 "" "$histdesk" -
prints standard_input "$folder/empty"
gives help 2 "histdesk: bad words" "$histdesk" --help
prints help "$folder/empty"
gives option_after_script 2 "histdesk: bad words" "$histdesk" "$folder/empty" -x
gives no_text 2 "histdesk: read failed" "$histdesk" $'\xff'
gives no_script 2 "histdesk: cannot read $folder/none" "$histdesk" "$folder/none"
gives empty_word 2 "histdesk: cannot read " "$histdesk" ""
gives trace_before_script 2 "histdesk: cannot read $folder/gone" "$histdesk" "$folder/none" "$folder/gone"
gives folder_as_trace 2 "histdesk: cannot read $folder/folder" "$histdesk" "$folder/empty" "$folder/folder"
gives folder_as_script 2 "histdesk: read failed" "$histdesk" "$folder/folder"

finish
