# Sourced by the tools beside it: where the kit's own programs are, as rt finds them. Programs are for x86-64; on an Arm computer the kit's
# emulator runs them.
command -v rt >/dev/null || die "there is no rt on the path: install the kit first"
# rt stands in the kit's own folder; where it is another program that calls it, it tells
kit=$(readlink -f -- "$(command -v rt)")
kit=${kit%/bin/rt}
if [ ! -d "$kit/toolchain" ]; then
    guide=$(rt doc </dev/null) || die "rt does not run on this computer"
    kit=${guide%/*}
fi
tools=$kit/toolchain
loader=$tools/lib/ld-linux-x86-64.so.2
emulator=$tools/bin/qemu-x86_64
[ -x "$emulator" ] || emulator=''
[ -f "$loader" ] || die "the kit of this rt has no $(basename "$loader")"
