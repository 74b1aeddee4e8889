# Where a proved program is, and whether it is built from the sources as they are. For the launcher and ./build, which set `root`, and
# `name`, the name of the program.

# What ./build makes is in a folder of its own: below .git, where neither git nor the checks of the toolchain look.
if [ -n "${BEBOPK_OUT:-}" ]; then
  out=$BEBOPK_OUT
elif [ -d "$root/.git" ]; then
  out=$root/.git/bebopk
else
  out=$root/out
fi
program=$out/$name

# Sets `kit` to the path of rt, or to nothing if there is none.
find_kit() {
  kit=
  if hash rt 2> /dev/null; then kit=${BASH_CMDS[rt]}; fi
}

# Prints when each file whose path is in `$out/files` was last changed. A copy can keep an older time of writing, but not this one.
# The shell in which it runs ends with it, since one more process takes a millisecond.
change_times() {
  local files
  mapfile -d '' -t files < "$out/files" && cd "$root" && exec stat -Lc '%.9Z %n' -- "${files[@]}"
} 2> /dev/null

# Neither the code nor its definitions nor rt was changed since ./build last compared the sources with those that the program was proved
# from. It takes a few milliseconds. A proof that was changed since leaves the program as it was proved. If it fails, `./build --done`
# compares all contents.
is_unchanged() {
  local kit known=
  [ -x "$program" ] && [ -f "$out/times" ] || return 1
  find_kit
  if [ -n "$kit" ]; then read -r known < "$out/kit" && [ "$kit" = "$known" ] || return 1; fi
  cmp -s "$out/times" <(change_times)
}
