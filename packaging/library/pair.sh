# Two machines for one project. bsched-project reads this file.
# shellcheck shell=bash

PAIR=/usr/libexec/bsched-tools/pair-project
[ -e "$PAIR" ] || PAIR=${BASH_SOURCE[0]%/*}/../pair-project # in a clone

# Writes the files of a pair and prints the commands, or says what a machine lacks.
on_pair() {
  is_root
  [ -e "$PAIR" ] || fail "the tools are not installed: apt install bsched-tools"
  "$PAIR" "$PROJECTS" "$PROJECTS-pair" "$@"
}

# Ends with a line if a project of a pair is not on this machine: its folder is then empty.
must_be_here() {
  local options=$PROJECTS-pair/$1/options others
  [ -e "$options" ] && [ ! -e "$PROJECTS/$1/settings.toml" ] || return 0
  others=$(sed -n -E 's/^(--machine=)?([a-z0-9-]+)=[0-9.]+,[0-9.]+$/\2/p' "$options" | grep -vxF -e "$(hostname)")
  fail "$1 is not on this machine: run this on ${others//$'\n'/ or }, or see \`crm_mon -1\`"
}
