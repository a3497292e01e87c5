# Sourced: path_without_rt is PATH without the folders that have rt. has_path_without_rt: whether the rest has what scripts need.
path_without_rt=$(echo "$PATH" | tr : '\n' | while read -r folder; do [ -x "$folder/rt" ] || printf '%s:' "$folder"; done)
path_without_rt=${path_without_rt%:}
has_path_without_rt() { PATH=$path_without_rt command -v awk >/dev/null && PATH=$path_without_rt command -v cat >/dev/null; }
