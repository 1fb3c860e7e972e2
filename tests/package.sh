#!/usr/bin/env bash
# Tries the package of the proved program, by hand, after ./u --prove: in a root folder that has a shell, dpkg, and
# what the recipes use, copied from this machine, and nothing of the kit. The .deb is installed, run, shares a run
# over a file, and is removed; then the same of what the .tar.xz has. It needs root, or spaces of names for users.
# The last line is 'N passed, M failed'.
. "$(dirname -- "${BASH_SOURCE[0]}")/common.sh" || exit 2
root=$temp/root

# Copies programs of this machine to the root folder, with the libraries that they load.
fill_root() {
    local name path
    mkdir -p -- "$root"/usr/{bin,sbin,lib,lib64} "$root"/{dev,proc,tmp,opt} "$root"/var/lib/dpkg/{info,updates}
    ln -s usr/bin usr/sbin usr/lib usr/lib64 "$root/"
    for name in "$@"; do
        path=$(PATH=$PATH:/usr/sbin:/sbin command -v "$name") && cp -L -- "$path" "$root/usr/bin/$name" || exit 2
        ldd "$path" 2>/dev/null | grep -o '/[^ ]*' | xargs -r cp -L --parents --update -t "$root"
    done
    dpkg -L libc6 | grep '/lib.*\.so\.[0-9]*$' | xargs cp -L --parents --update -t "$root"
    dpkg-query -s bash libc6 >"$root/var/lib/dpkg/status"
}

# Runs a command in the root folder.
inside() {
    unshare -rmpf bash -c 'mount --rbind /dev "$0/dev" && mount -t proc proc "$0/proc" &&
        exec chroot "$0" /usr/bin/env -i PATH=/usr/bin "$@"' "$root" "$@"
}

# Counts whether what a script of the shell prints in the root folder, on a line, is that.
expect() {
    expect_same "$1" "$2" "$(inside bash -c "$3" 2>&1 | paste -sd ' ')"
}

# Tries the program, which is installed below a folder.
try() {
    local double="$1/share/doc/u/programs/double.ul"
    expect "what was proved, $1" "$("$top/u" --version | paste -sd ' ')" "$1/bin/u --version"
    expect "a run, $1" 'verdict answer 8' "$1/bin/u run $double 4 | tail -n 1"
    expect "a bound of memory, $1" 'u: U_MEMORY is not a number from 16 up: 1' "U_MEMORY=1 $1/bin/u check $double"
    expect "two members on a file, $1" 'verdict answer 500500 same' "
        export U_BINARY=$1/bin/u
        cd /tmp && rm -f log* && sum=$1/share/doc/u/programs/sum.u
        $1/share/doc/u/recipes/member file:log \$sum 1000 --report a &
        $1/share/doc/u/recipes/member file:log \$sum 1000 --report b
        wait
        tail -n 1 a; cmp a b && echo same"
    expect "the manual page and the completions, $1" '' "test -s $1/share/man/man1/u.1 -a \
        -s $1/share/bash-completion/completions/u || echo none"
}

fill_root bash sh cat cmp cut diff dirname dpkg dpkg-deb dpkg-split env flock head ldconfig ls mkdir mkfifo mktemp \
    readlink rm sed sha256sum sleep sort start-stop-daemon tail tar touch
"$top/u" --package "$temp/made" || exit 2
for file in "$temp/made"/*; do
    size=$(stat -c %s -- "$file")
    echo "${file##*/}: $size bytes"
    expect "${file##*/} has at most 3 MB" '' "[ $size -le 3000000 ] || echo $size"
done
cp -- "$temp/made"/*.deb "$root/tmp/u.deb"
expect 'no kit is there' '' 'command -v rt; ls /opt'
expect 'it is installed' 0 'dpkg -i /tmp/u.deb >/tmp/said 2>&1; echo $?'
try /usr
expect 'it is removed' '0 none' \
    'dpkg -r u-dataflow >/tmp/said 2>&1; echo $?; ls -d /usr/*/u /usr/share/doc/u 2>/dev/null || echo none'
tar -C "$root/opt" --strip-components=1 -xf "$temp/made"/*.tar.xz
try /opt
finish
