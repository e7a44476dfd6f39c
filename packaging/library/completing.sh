# What a new project has is added to an older one. bsched-project reads this file.
# shellcheck shell=bash

COMPLETE=/usr/libexec/bsched-tools/complete-project
[ -e "$COMPLETE" ] || COMPLETE=${BASH_SOURCE[0]%/*}/../complete-project # in a clone

# Adds to a project what it lacks, and prints it.
complete_project() {
  local folder=$PROJECTS/$1 key added
  [ -d "$folder" ] || fail "there is no project $folder"
  [ -e "$COMPLETE" ] && [ -d "$TEMPLATES/project/bridge" ] || fail "the bridge is not installed: apt install bsched-tools"
  [ -d "$folder/bridge" ] || fail "there is no folder $folder/bridge: bsched-project --add-bridge $1 makes it"
  take_turn
  key=$("$SERVICE/operator-key" "$folder/settings.toml" 2> /dev/null)
  added=$("$COMPLETE" "$TEMPLATES/project" "$PROJECTS" "$1" <<< "$key" 2>&1) || fail "${added//$'\n'/; }"
  if [ -z "$added" ]; then
    echo "$folder has all that a new project has. Nothing was changed."
    return
  fi
  echo "$folder lacked what a new project has:"
  echo
  printf '%s\n' "$added" | sed 's/^/- /'
  echo
  echo "Nothing else was changed."
  [[ $'\n'$added != *$'\n'bridge/* ]] || print_changed_bridge "$1" "$added"
  [[ $'\n'$added != *$'\n'units.toml* ]] || print_timer_step "$1"
}

# Prints how the bridge takes its new settings.
print_changed_bridge() {
  cat << END

Look at bridge.toml, and let the bridge take it:

  cd $PROJECTS/$1/bridge
  runuser -u $USER_NAME -- bsched-bridge --config bridge.toml --check &&
    systemctl try-restart bsched-bridge@$1
END
  [[ $2 != *"[uploads]"* ]] || print_nginx_step "$1"
}
