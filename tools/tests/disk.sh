# A part of tools/test-tools: files of output on disks that are full or tell it late, and of runs that are killed or meet.
# shellcheck shell=bash disable=SC2154

disk=$room/disk
mkdir -p "$disk"/{old,out}
"$MUNGO" compile --out "$disk/old" "${adder[@]}" 2>/dev/null
# What is left of the old files, or of whole new ones: the class files of a program are the same each time.
is_whole() {
    local file
    for file in "$disk"/old/*; do
        cmp -s "$file" "$1/${file##*/}" || [ "$(cat "$1/${file##*/}" 2>/dev/null)" = "${2-}" ] || return 1
    done
}
# Files of output that hold the word old.
age() {
    local file
    for file in "$disk"/old/*; do echo old >"$1/${file##*/}"; done
}

# Where a program is of other sources than those that stand here, it may write as it will.
if [ "$(realpath "$MUNGO")" = "$top/release/mungo" ] && [ "$(head -n 1 release/digest)" != "$(tools/digest)" ]; then
    echo "disks not tried: release/mungo isn't of the sources that stand here"
else
    # The limit of a file's size is that of a full disk: what was there stays, and nothing is left beside it.
    age "$disk/out"
    (ulimit -f 0 && trap '' XFSZ && exec "$MUNGO" compile --out "$disk/out" "${adder[@]}") >/dev/null 2>&1
    [ $? -eq 4 ] && is_whole "$disk/out" old && [ "$(ls -A "$disk/out")" = "$(ls -A "$disk/old")" ]
    count "disk: files that may not grow leave the old ones" $?
    # Permissions stay; a file of two names and one behind a link are written in place.
    chmod 640 "$disk/out/CMain.class" && ln -f "$disk/out/SMain.class" "$disk/second" && ln -sf "$disk/behind" "$disk/out/SRole.class"
    "$MUNGO" compile --out "$disk/out" "${adder[@]}" && [ "$(stat -c %a "$disk/out/CMain.class")" = 640 ] &&
        cmp -s "$disk/second" "$disk/old/SMain.class" && [ -L "$disk/out/SRole.class" ] && cmp -s "$disk/behind" "$disk/old/SRole.class"
    count "disk: permissions, a second name and a link stay" $?
    rm -f "$disk/out/SRole.class"
    # Runs that are killed, at many moments, and two that meet.
    torn=0
    for try in $(seq 30); do
        age "$disk/out"
        "$MUNGO" compile --out "$disk/out" "${adder[@]}" 2>/dev/null &
        sleep "0.00$((try % 10))" && kill -KILL $! 2>/dev/null
        wait $! 2>/dev/null
        is_whole "$disk/out" old || torn=$((torn + 1))
    done 2>/dev/null
    [ $torn -eq 0 ]
    count "disk: $torn of 30 killed runs left a cut file" $?
    rm -f "$disk"/out/.mungo-*
    for try in $(seq 10); do
        "$MUNGO" compile --out "$disk/out" "${adder[@]}" & "$MUNGO" compile --out "$disk/out" "${adder[@]}"
        wait $! && is_whole "$disk/out" && [ "$(ls -A "$disk/out")" = "$(ls -A "$disk/old")" ] || break
    done
    [ "$try" -eq 10 ] && is_whole "$disk/out"
    count "disk: two runs at once" $?
    # A file system that isn't a disk's says at the sync that the bytes don't fit: a library stands for it.
    if command -v gcc >/dev/null && [ -d /dev/shm ] && [ -w /dev/shm ]; then
        printf '#include <errno.h>\nint fdatasync(int fd) { errno = EDQUOT; return -1; }\n' >"$disk/full.c"
        far=$(mktemp -d /dev/shm/mungo.XXXXXX)
        age "$far"
        gcc -shared -fPIC -o "$disk/full.so" "$disk/full.c" &&
            LD_PRELOAD=$disk/full.so "$MUNGO" compile --out "$far" "${adder[@]}" 2>"$disk/said"
        [ $? -eq 4 ] && [ "$(cat "$disk/said")" = "mungo: write $far/CRole.class" ] && is_whole "$far" old &&
            [ "$(ls -A "$far")" = "$(ls -A "$disk/old")" ]
        count "disk: bytes that are refused late" $?
        "$MUNGO" compile --out "$far" "${adder[@]}" && is_whole "$far"
        count "disk: a file system without a disk" $?
        rm -rf "$far"
    fi
    # A small file system that is full.
    if mkdir -p "$disk/small" && mount -t tmpfs -o size=16k tmpfs "$disk/small" 2>/dev/null; then
        age "$disk/small"
        "$MUNGO" compile --out "$disk/small" "${adder[@]}" >/dev/null 2>&1
        [ $? -eq 4 ] && is_whole "$disk/small" old
        count "disk: one that is full" $?
        umount "$disk/small"
    fi
fi
