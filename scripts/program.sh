#!/usr/bin/env bash
# The program zwc and what it is made of, for ./zwc and the scripts beside this one, which source this file. Run by itself it prints the path of
# the program that is made of the checkout's sources as they are, and fails where there is none.
top=$(cd "$(dirname "$(readlink -f "${BASH_SOURCE[0]}")")/.." && pwd)
# Programs are kept here, each named by the checksum of what it is made of.
home=$top/out/zwc

# The crates of the repository in the folder $1 that zwc stands on, itself among them, by their names.
needed_crates() {
  awk -F: '{ sub(/#.*/, "") } /^[a-z]/ { split($1, head, " "); below[head[1]] = $2 }
    END {
      crate[n = 1] = "zwc"; met["zwc"]
      for (i = 1; i <= n; i++) {
        m = split(below[crate[i]], list, " ")
        for (k = 1; k <= m; k++) if (list[k] in below && !(list[k] in met)) { met[list[k]]; crate[++n] = list[k] }
      }
      for (i = 1; i <= n; i++) print crate[i]
    }' "$1/crates.txt" | LC_ALL=C sort
}

# The lines of those crates in crates.txt.
needed_lines() {
  needed_crates "$1" | awk -F: 'NR == FNR { needed[$1]; next } { split($1, head, " ") } head[1] in needed' - "$1/crates.txt" | LC_ALL=C sort
}

# The folders of the repository in the folder $1 in which what those crates are made of stands.
needed_folders() {
  local crate part
  for crate in $(needed_crates "$1"); do
    for part in src specs proofs; do
      if [ -d "$1/crates/$crate/$part" ]; then echo "crates/$crate/$part"; fi
    done
  done
}

# The identity of the kit on the path. Nothing where there is no kit, or it has none.
kit_identity() {
  local rt id
  rt=$(command -v rt) || return 1
  id=$(dirname "$(readlink -f "$rt")")/../KIT-ID
  if [ -r "$id" ]; then head -n 1 "$id"; else rt version 2>/dev/null </dev/null | head -n 1; fi
}

# The checksum of all that the program is made of: the sources of its crates in the folder $1, their lines of crates.txt, HANDLES, and the
# kit's identity $2.
checksum() {
  (
    cd "$1" || exit 1
    echo "$2"
    cat HANDLES 2>/dev/null
    needed_lines .
    find $(needed_folders .) ! -type d -print0 | LC_ALL=C sort -z | xargs -0 sha256sum
  ) | sha256sum | head -c 32
}

# The path of the program that is made of the checkout's sources by the kit on the path. Where no kit is on the path, by whichever made it.
current_program() {
  local kit program
  if kit=$(kit_identity); then
    program=$home/zwc-$(checksum "$top" "$kit")
    [ -x "$program" ] && echo "$program"
    return
  fi
  for program in "$home"/zwc-*; do
    [ -x "$program" ] && [ -r "$program.kit" ] || continue
    [ "$program" = "$home/zwc-$(checksum "$top" "$(cat "$program.kit")")" ] && echo "$program" && return
  done
  return 1
}

# Keeps the program in the file $1, which is made of what has the checksum $2, by the kit $3; others go.
keep_program() {
  local kept=$home/zwc-$2
  mkdir -p "$home" && cp "$1" "$home/new.$$" && chmod +x "$home/new.$$" && echo "$3" >"$kept.kit" && mv -f "$home/new.$$" "$kept" || return 1
  find "$home" -maxdepth 1 -name 'zwc-*' ! -name "zwc-$2" ! -name "zwc-$2.kit" -delete
}

if [ "${BASH_SOURCE[0]}" = "$0" ]; then current_program; fi
