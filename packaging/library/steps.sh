# What bsched-project prints for the operator to do next. bsched-project reads this file.
# shellcheck shell=bash

DOCS=/usr/share/doc/bsched

# Prints what comes after a project or an example was made.
print_steps() {
  echo "$PROJECTS/$1 is made; its scheduler gets port $2."
  echo
  if [ "$3" = example ]; then
    print_example_steps "$1"
  elif [ -d "$PROJECTS/$1/bridge" ]; then
    print_settings_step
    print_work_steps "$1"
    print_timer_step "$1"
    print_nginx_step "$1"
  else
    print_table_steps "$1"
    print_timer_step "$1"
    echo
    echo "For BOINC's clients install bsched-tools, and run bsched-project --add-bridge $1."
  fi
}

print_settings_step() {
  cat << END
The settings are in settings.toml. To use others, remove the folder and run bsched-project
again.

END
}

# Prints the short way from a program and a folder of inputs to jobs.
print_work_steps() {
  cat << END
The bridge: look at bridge.toml in $PROJECTS/$1/bridge. The URL there can't be changed
later. Then make the keys for code signing, add your program, start the project, and make
a job of each file in a folder. Write your own words in place of APP, PROGRAM, BATCH and
INPUTS. \`bsched-tools app --help\` and \`bsched-tools submit --help\` have the options.

  cd $PROJECTS/$1/bridge
  bsched-bridge keygen
  bsched-tools app APP --project $1 --program PROGRAM --output out:1M --key code_sign_private
  systemctl enable --now bsched@$1 bsched-tick@$1.timer bsched-bridge@$1
  bsched-tools submit --project $1 --app APP --batch BATCH INPUTS

$DOCS/docs/FIRST_HUNDRED_JOBS.md explains each of them. Move
code_sign_private to a machine without a network.

If you write the catalogue and the CSV files yourself, follow the steps 3 to 8 of
$DOCS/docs/FIRST_VOLUNTEER.md instead.
END
}

# Prints how volunteers reach a project, if its URL needs nginx.
print_nginx_step() {
  [[ $(bridge_values "$1" url 2> /dev/null) = https:* ]] || return 0
  cat << END

Volunteers need nginx with a certificate for the name in the URL. This writes the lines for
nginx, and prints where to put them:

  bsched-project nginx $1
END
}

# Prints the steps of a project without a bridge: its rows come from CSV files.
print_table_steps() {
  cat << END
Write your rows into accounts.csv, apps.csv, versions.csv and workunits.csv there. Then
import the files and start the scheduler:

END
  print_import "$1"
  print_settings_step
}

print_example_steps() {
  cat << END
Its CSV files have the accounts of Ann and Bob, an application and two workunits. Import
the files and start the scheduler:

END
  print_import "$1"
  print_settings_step
  print_timer_step "$1"
  [ ! -d "$PROJECTS/$1/bridge" ] || print_example_bridge "$1"
}

# Prints the commands that import the CSV files of a project and start its scheduler.
print_import() {
  cat << END
  cd $PROJECTS/$1
$(import_lines "$1")
    systemctl enable --now bsched@$1 bsched-tick@$1.timer

If an import is refused, the rest is not done. Correct the file, and run the commands again:
what was imported is not added twice.

END
}

# Prints the commands that import the files of a project: by the tools, or by the program alone.
import_lines() {
  if command -v bsched-tools > /dev/null; then
    echo "  bsched-tools import --project $1 accounts.csv apps.csv versions.csv workunits.csv &&"
    return
  fi
  cat << END
  add() { runuser -u $USER_NAME -- bsched import --tables project.db --kind \$1 --batch first --file \$1.csv; }
  add accounts && add apps && add versions && add workunits &&
END
}

print_timer_step() {
  [ -e "$PROJECTS/$1/units.toml" ] || return 0
  cat << END

Copies and a look at its health come by timers, which read units.toml:

  systemctl enable --now bsched-copy@$1.timer bsched-health@$1.timer
END
}

# Prints how the program of the example is signed, and the bridge started. The program is in the folder files.
print_example_bridge() {
  cat << END

The bridge: make the keys for code signing, sign the program, let the user $USER_NAME read
what was made, and start the bridge.

  cd $PROJECTS/$1/bridge
  bsched-bridge keygen
  bsched-bridge sign files/sum_1 --key code_sign_private > sum_1.signature
  chgrp -R $USER_NAME code_sign_public *.signature files
  chmod -R g+rX code_sign_public *.signature files
  runuser -u $USER_NAME -- bsched-bridge --config bridge.toml --check &&
    systemctl enable --now bsched-bridge@$1
END
}

# Prints what comes after a project or an example got a bridge.
print_bridge_steps() {
  if [ "$2" = example ]; then
    print_example_bridge "$1"
  else
    echo "$PROJECTS/$1/bridge is made."
    echo
    print_work_steps "$1"
    print_nginx_step "$1"
  fi
}
