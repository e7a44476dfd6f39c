# The files for nginx of a project. bsched-project reads this file.
# shellcheck shell=bash

# Prints some settings of a project's bridge, as the bridge reads them: each on a line.
bridge_values() {
  bsched-bridge --config "$PROJECTS/$1/bridge/bridge.toml" --print "${@:2}"
}

# Prints a location that nginx answers by itself. A URL may have a key, so nothing is logged.
answered_location() {
  printf '    %s\n' "location $1 {" "    return $2;" "    access_log off;" "    error_log /dev/null crit;" "}"
}

# Prints the lines that lead from the name of the server to the project, unless the project is there already.
redirects() {
  [ "$2" != / ] || return 0
  printf '%s\n' '' "    # the name alone leads to the project, and nothing is logged: a URL may have a key"
  answered_location "= /" "301 $1"
  answered_location "= /get_project_config.php" "301 ${1}get_project_config.php"
  answered_location "/" 404
}

# Prints the line by which browsers use TLS alone for the name of the server. A browser that has read it asks the usual
# port of TLS, so there is none for another port.
strict_transport() {
  [ "$1" = 443 ] || return 0
  printf '%s\n' "    # browsers use TLS alone for this name, not for names below it; remove it if the name has sites without TLS"
  printf '%s\n' '    add_header Strict-Transport-Security "max-age=31536000" always;'
}

# Prints a template of nginx for a project.
filled() {
  local template=$1 project=$2 url=$3 site host path port lines strict
  site=${url%%/"${url#*://*/}"} site=${site%/}
  host=${site#*://} path=${url#"$site"} port=443
  if [[ $host = *:* ]]; then port=${host##*:} host=${host%:*}; fi
  lines=$(redirects "$url" "$path") strict=$(strict_transport "$port")
  while IFS= read -r line; do
    line=${line//@REDIRECTS@/$lines}
    line=${line//@HSTS@/$strict}
    line=${line//@NAME@/$project}
    line=${line//@URL@/$url}
    line=${line//@SITE@/$site}
    line=${line//@HOST@/$host}
    line=${line//@PATH@/$path}
    line=${line//@TLS_PORT@/$port}
    line=${line//@MOST_UPLOAD@/$5}
    printf '%s\n' "${line//@BRIDGE_PORT@/$4}"
  done < "$template"
}

# Writes the files for nginx of a project. They are not in its own folder: that is the user bsched's, who could put
# other lines or a link there before root installs them.
write_nginx() {
  local project=$1 folder=$PROJECTS-nginx/$1 settings=$PROJECTS/$1/bridge/bridge.toml values url most file
  [ -e "$settings" ] || fail "there is no bridge in $PROJECTS/$project"
  [ -d "$TEMPLATES/nginx" ] || fail "the bridge is not installed: apt install bsched-tools"
  # the bridge takes no upload with more bytes than most_upload, for any catalogue
  values=$(bridge_values "$project" url most_upload 2>&1) || fail "${values#bsched-bridge: }"
  url=${values%%$'\n'*} most=${values##*$'\n'}
  is_url "$url" || fail "$settings has no url of the form https://NAME/PATH/"
  [[ $url = https://* ]] || fail "the url in $settings is $url: these files are for https"
  [[ $most =~ ^[0-9]+$ ]] || fail "bsched-bridge prints $most and no number of bytes"
  read_ports "$PROJECTS/$project"
  mkdir -p "$folder" || fail "$folder can't be made"
  for file in limits locations site; do
    filled "$TEMPLATES/nginx/$file.conf" "$project" "$url" "$listen" "$most" > "$folder/$file.conf" ||
      fail "$folder/$file.conf can't be written"
  done
  print_nginx "$project" "$url"
}

print_nginx() {
  local host=${2#*://}
  cat << END
$PROJECTS-nginx/$1 has the lines for nginx. With the certificate of ${host%%/*} in
/etc/letsencrypt/live/${host%%[:/]*}, put them in their places:

  cd $PROJECTS-nginx/$1
  install -m 644 limits.conf /etc/nginx/conf.d/bsched-limits.conf
  install -m 644 locations.conf /etc/nginx/snippets/bsched-$1.conf
  install -m 644 site.conf /etc/nginx/conf.d/bsched-$1.conf
  nginx -t && systemctl reload nginx

Volunteers need the ports 80 and 443 of this machine. If ${host%%/*} has a web site
already, leave out site.conf. Write this line into the server block of that site:

include snippets/bsched-$1.conf;
END
}
